use crate::deepest::{CORNERS, DEEPEST};
use crate::ffi;
use crate::tally::Tally;
use crate::tile::NO_TILES;

type Held = (u8, u32, u32, u8);

pub fn run(tally: &mut Tally) {
    let first = |x, y, z| {
        move |v: &mut Held| ffi::nori_iter_parents(x, y, z, &mut v.0, &mut v.1, &mut v.2, &mut v.3)
    };
    tally.gives("nori_iter_parents", first(3, 5, 3), (1, 1, 2, 2));
    tally.gives("nori_iter_parents", first(1, 1, 1), (1, 0, 0, 0));
    tally.gives("nori_iter_parents", first(0, 0, 0), (0, 0, 0, 0));
    tally.gives(
        "nori_parents_next",
        next((1, 3, 5, 3)),
        ((1, 3, 5, 3), (1, 1, 2, 2)),
    );
    tally.gives(
        "nori_parents_next",
        next((1, 0, 0, 0)),
        ((1, 0, 0, 0), (0, 0, 0, 0)),
    );
    tally.gives(
        "nori_parents_next",
        next((0, 9, 9, 9)),
        ((0, 0, 0, 0), (0, 0, 0, 0)),
    );
    tally.gives(
        "nori_parents_next",
        next((0, 9, 9, 255)),
        ((0, 0, 0, 0), (0, 0, 0, 0)),
    );
    for (x, y) in CORNERS {
        let parent = (1, x / 2, y / 2, DEEPEST - 1);
        tally.gives("nori_iter_parents", first(x, y, DEEPEST), parent);
        let held = (1, x, y, DEEPEST);
        tally.gives("nori_parents_next", next(held), (held, parent));
    }
    for (x, y, z, number) in NO_TILES {
        tally.refuses("nori_iter_parents", first(x, y, z), number);
        tally.refuses("nori_parents_next", next((1, x, y, z)), number);
    }
}

fn next((held, x, y, z): Held) -> impl Fn(&mut (Held, Held)) -> u8 {
    move |(t, r)| {
        ffi::nori_parents_next(
            held, x, y, z, &mut t.0, &mut t.1, &mut t.2, &mut t.3, &mut r.0, &mut r.1, &mut r.2,
            &mut r.3,
        )
    }
}
