//! Makes the same random calls of the Rust original and of the proved library, and prints how many of each function
//! differ. Every call that is counted was run by both, and lies in the domain that document 01 states for comparing.
//! Ends with 1 if any differs.
mod bbox;
mod entries;
mod fns;
mod inputs;
mod memory;
mod merge;
mod parent;
mod quadkey;
mod sibling_relationship;
mod tally;
mod tile;
mod tile_zbox;
mod zoom;

#[allow(dead_code)]
#[path = "../../../bindings/rust/src/ffi.rs"]
mod ffi;
#[path = "../../oracle/generator/lists.rs"]
mod lists;
#[path = "../../oracle/generator/paper.rs"]
mod paper;
#[path = "../../oracle/generator/places.rs"]
mod places;
#[path = "../../oracle/generator/sample.rs"]
mod sample;

use sample::{Random, SEED};
use tally::Tally;

const MODULES: [(&str, fn(&mut Tally, &mut Random)); 9] = [
    ("sibling_relationship", sibling_relationship::compare),
    ("tile", tile::compare),
    ("quadkey", quadkey::compare),
    ("fns", fns::compare),
    ("parent", parent::compare),
    ("tile_zbox", tile_zbox::compare),
    ("zoom", zoom::compare),
    ("bbox", bbox::compare),
    ("merge", merge::compare),
];
/// The rounds of each module; a round calls each of its functions, most of them once.
const ROUNDS: usize = 100_000;

fn main() {
    // A stop of the Rust is caught and counted.
    std::panic::set_hook(Box::new(|_| {}));
    println!("seed {SEED:#x}, {ROUNDS} rounds\n\n| module | function | calls | differences |\n|---|---|---:|---:|");
    let mut tally = Tally::default();
    for (module, compare) in MODULES {
        let mut random = Random::new();
        tally.begin(module);
        for _ in 0..ROUNDS {
            compare(&mut tally, &mut random);
        }
        tally.print_module();
    }
    if !tally.print_total() {
        std::process::exit(1);
    }
}
