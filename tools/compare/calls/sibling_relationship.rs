//! The relation is of any two numbers and is never refused.
use utiles_core::sibling_relationship::SiblingRelationship;

use crate::ffi::*;
use crate::inputs;
use crate::memory::value;
use crate::sample::Random;
use crate::tally::Tally;

pub fn compare(tally: &mut Tally, random: &mut Random) {
    let (x, y) = (inputs::word(random), inputs::word(random));
    let ours = value(9, |relation| nori_sibling_relationship(x, y, relation));
    tally.call("from", (x, y), ours, || (0, SiblingRelationship::from((x, y)) as u8));
}
