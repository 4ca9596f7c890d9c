use crate::deepest::CORNERS;
use crate::ffi;
use crate::tally::Tally;

pub fn run(tally: &mut Tally) {
    let pairs = [
        (0, 0, 0),
        (1, 0, 1),
        (0, 1, 2),
        (3, 5, 3),
        (u32::MAX, u32::MAX - 1, 1),
    ];
    let corners = (0..).zip(CORNERS).map(|(digit, (x, y))| (x, y, digit));
    for (x, y, relation) in pairs.into_iter().chain(corners) {
        tally.gives(
            "nori_sibling_relationship",
            |v| ffi::nori_sibling_relationship(x, y, v),
            relation,
        );
    }
}
