//! The relation is of any two numbers and is never refused.
use utiles_core::sibling_relationship::SiblingRelationship;

use crate::record::List;
use crate::sample::Random;

pub fn write(list: &mut List) {
    let mut random = Random::new();
    let near = [0, 1, 2, 3, 4, 5, 6, 7, (1 << 29) - 1, 1 << 29, u32::MAX - 1, u32::MAX];
    let mut pairs: Vec<(u32, u32)> = near.iter().flat_map(|&x| near.map(|y| (x, y))).collect();
    pairs.extend((0..400).map(|_| (random.word(), random.word())));
    for (x, y) in pairs {
        list.call("from", &[x.into(), y.into()], 0, 1, || vec![SiblingRelationship::from((x, y)) as u64]);
    }
}
