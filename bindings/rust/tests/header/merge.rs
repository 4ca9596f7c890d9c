use crate::deepest::{DEEPEST, DIGITS, corner_keys, without};
use crate::ffi;
use crate::lists::{NO_TILE, in_order, keys};
use crate::tally::Tally;

type Settling = unsafe extern "C" fn(*const u64, usize, u8, *mut u64, usize, &mut u64) -> u8;

pub fn run(tally: &mut Tally) {
    merged(tally);
    let both: [(_, Settling); 2] = [
        ("nori_simplify", ffi::nori_simplify),
        ("nori_simplify_v1", ffi::nori_simplify_v1),
    ];
    for (name, call) in both {
        let list = keys(&["03", "01", "1", "02", "00", "123", "03"]);
        tally.lists(name, settle(call, &list, 0), &keys(&["0", "1"]), 7);
        tally.lists(name, settle(call, &[], 0), &[], 0);
        let corners = corner_keys();
        let ordered = keys(&in_order(&corners));
        tally.lists(name, settle(call, &keys(&corners), 0), &ordered, 4);
        for key in corners {
            let answers = [
                (0, keys(&[""])),
                (DEEPEST - 1, whole(&key[..DIGITS - 1])),
                (DEEPEST, whole(&key)),
            ];
            for (minzoom, answer) in answers {
                let list: Vec<u64> = whole(&key).into_iter().rev().collect();
                let places = list.len();
                tally.lists(name, settle(call, &list, minzoom), &answer, places);
            }
        }
        tally.lists(
            name,
            settle(call, &vec![keys(&["0"])[0]; 65_536], 255),
            &keys(&["0"]),
            65_536,
        );
        tally.leaves(
            name,
            7,
            settle(call, &[vec![NO_TILE; 65_536], list.clone()].concat(), 0),
            6,
        );
        tally.leaves(name, 0, settle(call, &[list, vec![NO_TILE]].concat(), 0), 7);
    }
    let two = keys(&["0", "00"]);
    tally.lists(
        "nori_simplify_v1",
        settle(ffi::nori_simplify_v1, &two, 1),
        &two,
        2,
    );
    tally.lists(
        "nori_simplify",
        settle(ffi::nori_simplify, &two, 1),
        &two[..1],
        2,
    );
}

/// The map, cut so that the tile of a key and its siblings are the only four together.
fn whole(key: &str) -> Vec<u64> {
    let mut tiles = without(key);
    tiles.push(key.to_owned());
    keys(&in_order(&tiles))
}

fn settle(call: Settling, list: &[u64], minzoom: u8) -> impl Fn(*mut u64, usize, &mut u64) -> u8 {
    move |out, places, count| unsafe {
        call(list.as_ptr(), list.len(), minzoom, out, places, count)
    }
}

fn merged(tally: &mut Tally) {
    let call = |list: Vec<u64>, minzoom| {
        move |out: *mut u64, places, v: &mut (u64, u8)| unsafe {
            ffi::nori_merge(
                list.as_ptr(),
                list.len(),
                minzoom,
                out,
                places,
                &mut v.0,
                &mut v.1,
            )
        }
    };
    let name = "nori_merge";
    let list = keys(&["03", "01", "1", "02", "00", "03"]);
    for places in [6, 11] {
        tally.writes(
            name,
            places,
            call(list.clone(), 0),
            (&keys(&["0", "1"]), 6, (2, 1)),
        );
        tally.writes(
            name,
            places,
            call(list.clone(), 1),
            (&keys(&["0", "1"]), 6, (2, 1)),
        );
        let same = keys(&["1", "00", "02", "01", "03"]);
        tally.writes(name, places, call(list.clone(), 2), (&same, 6, (5, 0)));
    }
    for key in corner_keys() {
        let (list, answer) = (whole(&key), whole(&key[..DIGITS - 1]));
        let (places, count) = (list.len(), answer.len() as u64);
        tally.writes(
            name,
            places,
            call(list.clone(), DEEPEST - 1),
            (&answer, places, (count, 1)),
        );
        tally.writes(
            name,
            places,
            call(list.clone(), DEEPEST),
            (&list, places, (places as u64, 0)),
        );
    }
    tally.writes(name, 0, call(vec![], 0), (&[], 0, (0, 0)));
    tally.leaves(name, 5, call(list.clone(), 0), 12);
    tally.leaves(name, 0, call(list.clone(), 0), 12);
    tally.leaves(name, 0, call(vec![NO_TILE; 65_537], 0), 6);
    tally.leaves(name, 0, call([list, vec![NO_TILE]].concat(), 0), 7);
}
