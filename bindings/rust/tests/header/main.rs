//! Every function of the archive against bindings/c/noripliers.h: accepted and refused, with the
//! values behind the pointers and the lent memory compared whole, and each refusal that the header
//! names given at least once.
#![allow(unsafe_code, missing_docs)]

mod area;
mod bbox;
mod deepest;
#[allow(
    dead_code,
    reason = "not every limit is needed; that every call is made is tested"
)]
#[path = "../../src/ffi.rs"]
mod ffi;
mod fns;
mod form;
mod lists;
mod merge;
mod parent;
mod quadkey;
mod sibling_relationship;
mod tally;
mod tile;
mod tile_zbox;
mod version;
mod zoom;

use std::collections::{BTreeMap, BTreeSet};

// The archive comes with the crate.
use noripliers as _;
use tally::Tally;

#[test]
fn every_call_does_what_the_header_says() {
    let mut tally = Tally::default();
    version::run(&mut tally);
    sibling_relationship::run(&mut tally);
    tile::run(&mut tally);
    quadkey::run(&mut tally);
    fns::run(&mut tally);
    parent::run(&mut tally);
    tile_zbox::run(&mut tally);
    zoom::run(&mut tally);
    bbox::run(&mut tally);
    merge::run(&mut tally);
    area::run(&mut tally);
    form::run(&mut tally);
    let named = ffi::REFUSALS.iter().map(|&(name, numbers)| {
        let numbers: BTreeSet<u8> = [0].iter().chain(numbers).copied().collect();
        (name, numbers)
    });
    assert_eq!(
        tally.given,
        named.collect(),
        "the numbers that calls gave, and those that the header names"
    );
}

#[test]
fn the_header_declares_the_same_calls_and_refusals() {
    let path = concat!(env!("CARGO_MANIFEST_DIR"), "/../c/noripliers.h");
    let header = std::fs::read_to_string(path).expect("the C header");
    let mut declared = BTreeMap::new();
    let mut refusals = None;
    for line in header.lines() {
        if let Some((_, rest)) = line.split_once("uint8_t nori_") {
            let name = rest.split('(').next().expect("a name");
            declared.insert(
                format!("nori_{name}"),
                refusals.take().expect("a line on refusals before the call"),
            );
        } else if line.contains("Never refused.") {
            refusals = Some(vec![]);
        } else if let Some((_, numbers)) = line.split_once("Refused: ") {
            let numbers = numbers.trim_end_matches("*/").trim().trim_end_matches('.');
            refusals = Some(
                numbers
                    .split(", ")
                    .map(|n| n.parse().expect("a number"))
                    .collect(),
            );
        }
    }
    let called: BTreeMap<String, Vec<u8>> = ffi::REFUSALS
        .iter()
        .map(|&(name, numbers)| (name.to_owned(), numbers.to_vec()))
        .collect();
    assert_eq!(declared, called);
}
