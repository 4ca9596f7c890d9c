use crate::deepest::{DIGITS, corner_keys, without};
use crate::ffi;
use crate::lists::{NO_TILE, in_order, keys};
use crate::tally::Tally;

type Pair =
    unsafe extern "C" fn(*const u64, usize, *const u64, usize, *mut u64, usize, &mut u64) -> u8;

pub fn run(tally: &mut Tally) {
    let (plan, lake) = (keys(&["0", "12"]), keys(&["01", "130"]));
    let calls: [(_, Pair, &[&str]); 3] = [
        ("nori_union", ffi::nori_union, &["0", "12", "130"]),
        ("nori_common_part", ffi::nori_common_part, &["01"]),
        (
            "nori_difference",
            ffi::nori_difference,
            &["00", "02", "12", "03"],
        ),
    ];
    for (name, call, answer) in calls {
        // A difference needs its result's places, the others those of both lists.
        let of_result = name == "nori_difference";
        let needs = if of_result { answer.len() } else { 4 };
        tally.lists(
            name,
            on(call, &plan, &lake),
            &keys(&in_order(answer)),
            needs,
        );
        tally.lists(name, on(call, &[], &[]), &[], 0);
        refused(tally, name, call, &plan);
    }
    for key in corner_keys() {
        deepest(tally, &key);
    }
    settled(tally);
}

/// The map, one tile of the deepest zoom, and what is left without it.
fn deepest(tally: &mut Tally, key: &str) {
    let (map, tile, left) = (keys(&[""]), keys(&[key]), keys(&in_order(&without(key))));
    let needs = 3 * DIGITS;
    let rows: [(_, Pair, _, &[u64], _); 4] = [
        ("nori_difference", ffi::nori_difference, &map, &left, needs),
        ("nori_union", ffi::nori_union, &left, &map, needs + 1),
        (
            "nori_common_part",
            ffi::nori_common_part,
            &left,
            &[],
            needs + 1,
        ),
        ("nori_common_part", ffi::nori_common_part, &map, &tile, 2),
    ];
    for (name, call, a, answer, needs) in rows {
        tally.lists(name, on(call, a, &tile), answer, needs);
    }
}

fn on(call: Pair, a: &[u64], b: &[u64]) -> impl Fn(*mut u64, usize, &mut u64) -> u8 {
    move |out, places, count| unsafe {
        call(a.as_ptr(), a.len(), b.as_ptr(), b.len(), out, places, count)
    }
}

fn refused(tally: &mut Tally, name: &'static str, call: Pair, plan: &[u64]) {
    let unsettled = keys(&["12", "0"]);
    let long = vec![NO_TILE; 65_537];
    let rows: [(&[u64], &[u64], u8); 8] = [
        (&long, plan, 6),
        (plan, &long, 6),
        (&[NO_TILE], plan, 7),
        (plan, &[NO_TILE], 7),
        (&unsettled, &[NO_TILE], 7),
        (&unsettled, plan, 11),
        (plan, &unsettled, 11),
        (plan, &[plan[0], plan[0]], 11),
    ];
    for (a, b, number) in rows {
        tally.leaves(name, 9, on(call, a, b), number);
        tally.leaves(name, 0, on(call, a, b), number);
    }
}

fn settled(tally: &mut Tally) {
    let is = |list: Vec<u64>| {
        move |told: &mut u8| unsafe { ffi::nori_is_settled(list.as_ptr(), list.len(), told) }
    };
    let rows: [(&[&str], u8); 7] = [
        (&[], 1),
        (&["0", "12"], 1),
        (&["0", "2", "1"], 1),
        (&["12", "0"], 0),
        (&["0", "0"], 0),
        (&["0", "01"], 0),
        (&["0", "2", "1", "3"], 0),
    ];
    for (list, told) in rows {
        tally.gives("nori_is_settled", is(keys(list)), told);
    }
    // The order of the corners' digits is that of their numbers, but not that of lists.
    let corners = corner_keys();
    tally.gives("nori_is_settled", is(keys(&in_order(&corners))), 1);
    tally.gives("nori_is_settled", is(keys(&corners)), 0);
    for key in &corners {
        let mut others = without(key);
        tally.gives("nori_is_settled", is(keys(&in_order(&others))), 1);
        others.push(key.clone());
        tally.gives("nori_is_settled", is(keys(&in_order(&others))), 0);
    }
    tally.refuses("nori_is_settled", is(vec![NO_TILE; 65_537]), 6);
    tally.refuses("nori_is_settled", is(vec![NO_TILE]), 7);
}
