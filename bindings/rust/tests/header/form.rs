use crate::deepest::{DIGITS, corner_keys, without};
use crate::ffi;
use crate::lists::{in_order, keys};
use crate::tally::{BEHIND, Tally};

/// The lines of the paper, with what is printed for each.
const PAPER: [(&[u8], &[u8]); 5] = [
    (b"(tiles 00 01 02 03)", b"(1 0)"),
    (
        b"(minus (tiles 0) (tiles 012))",
        b"(6 00 02 03 010 011 013)",
    ),
    (b"(both (tiles 1) (tiles 0))", b"(0)"),
    (b"(plus (tiles 0 1) (tiles 2 3))", b"(1 -)"),
    (b"(tiles 4)", b"(refused 5)"),
];

/// Lines that are refused on the whole, before any key.
fn no_forms() -> Vec<(Vec<u8>, u8)> {
    vec![
        (vec![b'('; 4097], 13),
        (vec![b'('; 4096], 14),
        (b"(((((((((((((((((".to_vec(), 14),
        (b"((((((((((((((((".to_vec(), 15),
        (b"".to_vec(), 15),
        (b"(tiles )".to_vec(), 15),
        (b"(tiles 4".to_vec(), 15),
    ]
}

pub fn run(tally: &mut Tally) {
    let check = |line: Vec<u8>| {
        move |_: &mut ()| unsafe { ffi::nori_form_check(line.as_ptr(), line.len()) }
    };
    for (line, printed) in PAPER {
        tally.gives("nori_form_check", check(line.to_vec()), ());
        tally.lists("nori_form_answer", answer(line), printed, printed.len());
    }
    for (line, number) in no_forms() {
        tally.refuses("nori_form_check", check(line.clone()), number);
        tally.leaves("nori_form_area", 256, area(&line), number);
        tally.leaves("nori_form_area", 0, area(&line), number);
        let printed = format!("(refused {number})");
        tally.lists(
            "nori_form_answer",
            answer(&line),
            printed.as_bytes(),
            printed.len(),
        );
    }
    areas(tally);
    fed(tally);
    finished(tally);
}

fn answer(line: &[u8]) -> impl Fn(*mut u8, usize, &mut u64) -> u8 {
    move |out, places, count| unsafe {
        ffi::nori_form_answer(line.as_ptr(), line.len(), out, places, count)
    }
}

fn area(line: &[u8]) -> impl Fn(*mut u64, usize, &mut u64) -> u8 {
    move |out, places, count| unsafe {
        ffi::nori_form_area(line.as_ptr(), line.len(), out, places, count)
    }
}

fn areas(tally: &mut Tally) {
    let name = "nori_form_area";
    tally.lists(
        name,
        area(b"(minus (tiles 0) (tiles 012))"),
        &keys(&["00", "02", "03", "010", "011", "013"]),
        6,
    );
    tally.lists(name, area(b"(tiles 01 00 01 0)"), &keys(&["0"]), 1);
    tally.lists(name, area(b"(tiles)"), &[], 0);
    let many = |n| [b"(tiles".to_vec(), b" 0".repeat(n), b")".to_vec()].concat();
    tally.lists(name, area(&many(256)), &keys(&["0"]), 1);
    tally.leaves(name, 300, area(&many(257)), 12);
    let too_long = "0".repeat(DIGITS + 1);
    for (line, number) in [
        (format!("(tiles 0 {too_long})"), 4),
        (format!("(plus (tiles 4) (tiles {too_long}))"), 5),
    ] {
        tally.leaves(name, 300, area(line.as_bytes()), number);
        let printed = format!("(refused {number})");
        tally.lists(
            "nori_form_answer",
            answer(line.as_bytes()),
            printed.as_bytes(),
            printed.len(),
        );
    }
    for key in corner_keys() {
        let parent = &key[..DIGITS - 1];
        let family = format!("(tiles {parent}0 {parent}1 {parent}2 {parent}3)");
        for (line, left) in [
            (format!("(tiles {key})"), vec![key.clone()]),
            (family, vec![parent.to_owned()]),
            (
                format!("(minus (tiles -) (tiles {key}))"),
                in_order(&without(&key)),
            ),
        ] {
            tally.lists(name, area(line.as_bytes()), &keys(&left), left.len());
            let printed = format!("({} {})", left.len(), left.join(" "));
            tally.lists(
                "nori_form_answer",
                answer(line.as_bytes()),
                printed.as_bytes(),
                printed.len(),
            );
        }
    }
}

/// The line of a feed has its own memory beside that of the answers, and is compared too.
fn feed(
    tally: &mut Tally,
    line: &[u8],
    chunk: &[u8],
    places: usize,
    expected: (&[u8], &[u8], usize),
) {
    let (printed, kept, next) = expected;
    let call = |memory: &mut [u8], v: &mut (u64, u64, u64)| {
        let (kept, out) = memory
            .split_first_chunk_mut::<{ ffi::KEPT }>()
            .expect("a line");
        kept[..line.len()].copy_from_slice(line);
        let (chunk, length) = (chunk.as_ptr(), chunk.len());
        unsafe {
            ffi::nori_form_feed(
                chunk,
                length,
                kept,
                line.len(),
                out.as_mut_ptr(),
                places,
                &mut v.0,
                &mut v.1,
                &mut v.2,
            )
        }
    };
    let written = |before: &[u8]| {
        let mut memory = before.to_vec();
        // A line that ended in the chunk may have left more than is kept of the last one: what
        // stands behind that is free.
        memory[..kept.len()].copy_from_slice(kept);
        memory[ffi::KEPT..ffi::KEPT + printed.len()].copy_from_slice(printed);
        (
            0,
            (next as u64, kept.len() as u64, printed.len() as u64),
            memory,
        )
    };
    let masked = |memory: &mut [u8], v: &mut (u64, u64, u64)| {
        let before = memory.to_vec();
        let number = call(memory, v);
        memory[kept.len()..ffi::KEPT].copy_from_slice(&before[kept.len()..ffi::KEPT]);
        number
    };
    tally.call(
        "nori_form_feed",
        ffi::KEPT + places + BEHIND,
        masked,
        written,
    );
}

fn fed(tally: &mut Tally) {
    let chunk = b"(tiles 0)\n(tiles 4)\n(til";
    feed(
        tally,
        b"",
        chunk,
        100,
        (b"(1 0)\n(refused 5)\n", b"(til", chunk.len()),
    );
    for key in corner_keys() {
        let chunk = format!("(tiles {key})\n(tiles {key}0)\n");
        let printed = format!("(1 {key})\n(refused 4)\n");
        let expected = (printed.as_bytes(), &b""[..], chunk.len());
        feed(tally, b"", chunk.as_bytes(), printed.len(), expected);
    }
    feed(tally, b"", b"", 0, (b"", b"", 0));
    feed(tally, b"(tiles", b" 0)", 0, (b"", b"(tiles 0)", 3));
    feed(tally, b"(tiles 0)", b"\n", 6, (b"(1 0)\n", b"", 1));
    feed(tally, b"(tiles 0)", b"\n", 5, (b"", b"(tiles 0)", 0));
    feed(
        tally,
        b"",
        b"(tiles 0)\n(tiles 1)\n",
        6,
        (b"(1 0)\n", b"(tiles 1)", 19),
    );
    let long = [b'('; 5000];
    feed(tally, b"", &long, 0, (b"", &long[..4097], 5000));
    feed(
        tally,
        &long[..4097],
        b"(\n",
        13,
        (b"(refused 13)\n", b"", 2),
    );
}

fn finished(tally: &mut Tally) {
    let finish = |line: &[u8]| {
        let (mut kept, length) = ([b'x'; ffi::KEPT], line.len());
        kept[..length].copy_from_slice(line);
        move |out, places, count: &mut u64| unsafe {
            ffi::nori_form_finish(&kept, length, out, places, count)
        }
    };
    for key in corner_keys() {
        let line = format!("(tiles {key})");
        let printed = format!("(1 {key})\n");
        tally.lists(
            "nori_form_finish",
            finish(line.as_bytes()),
            printed.as_bytes(),
            printed.len(),
        );
    }
    tally.lists("nori_form_finish", finish(b"(tiles 0)"), b"(1 0)\n", 6);
    tally.lists("nori_form_finish", finish(b""), b"", 0);
    tally.lists(
        "nori_form_finish",
        finish(&[b'('; 4097]),
        b"(refused 13)\n",
        13,
    );
}
