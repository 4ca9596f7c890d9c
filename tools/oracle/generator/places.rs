//! Degree boxes as places in a table of twelve numbers, NaN first and the others in order.
use crate::sample::Random;

/// West, south, east, north.
pub type Places = [u64; 4];

// NaN, which makes most comparisons false, is rarer than the others.
fn number(random: &mut Random) -> u64 {
    if random.below(24) == 0 { 0 } else { 1 + random.below(11) }
}

/// A box that holds something, or one that crosses the antimeridian, or, one time in four, any four numbers.
pub fn any(random: &mut Random) -> Places {
    let [a, b, c, d] = [(); 4].map(|()| number(random));
    match random.below(4) {
        0 => [a, c, b, d],
        1 => [a.max(b), c.min(d), a.min(b), c.max(d)],
        _ => [a.min(b), c.min(d), a.max(b), c.max(d)],
    }
}

/// A box that lies inside another one, or now and then sticks out of it by a place.
pub fn near(random: &mut Random, [west, south, east, north]: Places) -> Places {
    let mut moved = |from: u64, to: u64| {
        let inwards = random.below(12) != 0;
        match random.below(3) {
            0 => from,
            _ if (from < to) == inwards => (from + 1).min(11),
            _ => from.saturating_sub(1),
        }
    };
    [moved(west, east), moved(south, north), moved(east, west), moved(north, south)]
}
