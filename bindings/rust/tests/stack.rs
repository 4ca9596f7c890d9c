//! The calls that need much stack, at their largest, in threads of little stack.
#![allow(missing_docs)]

use std::env;
use std::process::{Command, Stdio};
use std::thread;

use noripliers::constants::{MAX_ENTRIES, MAX_OPEN, MAX_ZOOM};
use noripliers::{Error, Tile, form, lent};

/// The stack of a thread that a Rust program starts.
const USUAL: usize = 2 << 20;

/// Which call `measure` tries in a process of its own, and with how much stack.
const CALL: &str = "NORIPLIERS_STACK_CALL";
const STACK: &str = "NORIPLIERS_STACK_BYTES";

/// What is to be done in the thread, with its lists made before.
type Call = Box<dyn FnOnce() + Send>;

type Made = (&'static str, fn() -> Call);
type OfOne = fn(&[u64], &mut [u64]) -> Result<usize, Error>;
type OfTwo = fn(&[u64], &[u64], &mut [u64]) -> Result<usize, Error>;

const CALLS: [Made; 12] = [
    ("merge", || {
        on_one(|a, out| lent::merge(a, 0, out).map(|(count, _)| count))
    }),
    ("simplify_v1", || {
        on_one(|a, out| lent::simplify_v1(a, 0, out))
    }),
    ("simplify", || on_one(|a, out| lent::simplify(a, 0, out))),
    ("is_settled", || {
        on_one(|a, _| lent::is_settled(a).map(usize::from))
    }),
    ("from_tiles", || {
        on_one(|a, _| lent::from_tiles(a).map(|_| 0))
    }),
    ("union", || on_two(lent::union)),
    ("common_part", || on_two(lent::common_part)),
    ("difference", || on_two(lent::difference)),
    ("difference, deepest", || {
        let (map, holes) = ([Tile::root().entry()], scattered(MAX_ENTRIES, MAX_ZOOM));
        let mut out = vec![0; 3 * usize::from(MAX_ZOOM) * MAX_ENTRIES];
        Box::new(move || assert!(lent::difference(&map, &holes, &mut out).is_ok()))
    }),
    ("children, deepest", || {
        let mut out = vec![0; 1 << 20];
        Box::new(move || {
            let count = lent::children(5, 9, MAX_ZOOM - 10, MAX_ZOOM, &mut out);
            assert_eq!(count, Ok(1 << 20));
        })
    }),
    ("form, left operands", || {
        on_form(|form, leaf| format!("(minus {form} {leaf})"))
    }),
    ("form, right operands", || {
        on_form(|form, leaf| format!("(plus {leaf} {form})"))
    }),
];

fn on_one(call: OfOne) -> Call {
    let (list, mut out) = (scattered(MAX_ENTRIES, 9), vec![0; MAX_ENTRIES]);
    Box::new(move || assert!(call(&list, &mut out).is_ok()))
}

/// The tiles of the second list lie under those of the first or beside them.
fn on_two(call: OfTwo) -> Call {
    let (a, b, mut out) = (
        scattered(MAX_ENTRIES, 9),
        scattered(MAX_ENTRIES, 11),
        vec![0; 4 * MAX_ENTRIES],
    );
    Box::new(move || assert!(call(&a, &b, &mut out).is_ok()))
}

/// As many open brackets as may be, with lists at the innermost that need the larger scratch.
fn on_form(pair: fn(String, &str) -> String) -> Call {
    let keys: String = (0..100)
        .map(|i| format!(" {}{}{}{}0", i % 4, i / 4 % 4, i / 16 % 4, i / 64))
        .collect();
    let line = (2..MAX_OPEN).fold(
        format!("(minus (tiles{keys}) (tiles{keys}1))"),
        |form, _| pair(form, "(tiles 3333)"),
    );
    Box::new(move || assert!(form::area(line.as_bytes()).is_ok()))
}

/// Every other tile of a square of the map, in list order: nothing merges.
fn scattered(n: usize, zoom: u8) -> Vec<u64> {
    let side = 2 * n.isqrt() as u32;
    let places = (0..side)
        .step_by(2)
        .flat_map(|x| (0..side).step_by(2).map(move |y| (x, y)));
    places
        .map(|(x, y)| Tile::new(x, y, zoom).unwrap().entry())
        .take(n)
        .collect()
}

fn run(call: Call, stack: usize) {
    let thread = thread::Builder::new().stack_size(stack).spawn(call);
    thread.expect("a thread").join().expect("the call ends");
}

#[test]
fn two_mebibytes_of_stack_are_enough() {
    for (_, call) in CALLS {
        run(call(), USUAL);
    }
}

/// Prints how much stack each call needs: `cargo test --release --test stack -- --ignored
/// --nocapture measure`. A thread has 16 KiB at least.
#[test]
#[ignore = "it measures and tests nothing"]
fn measure() {
    if let (Ok(name), Ok(stack)) = (env::var(CALL), env::var(STACK)) {
        let (_, call) = CALLS
            .into_iter()
            .find(|(other, _)| *other == name)
            .expect("a call");
        return run(call(), stack.parse().expect("a number"));
    }
    for (name, _) in CALLS {
        let (mut least, mut most) = (0, USUAL);
        while most - least > 4096 {
            let middle = (least + most) / 2;
            if ends(name, middle) {
                most = middle
            } else {
                least = middle
            }
        }
        println!("{name}: {} KiB", most / 1024);
    }
}

fn ends(name: &str, stack: usize) -> bool {
    let mut child = Command::new(env::current_exe().expect("this program"));
    child
        .args(["--ignored", "--exact", "measure"])
        .env(CALL, name)
        .env(STACK, stack.to_string());
    child
        .stdout(Stdio::null())
        .stderr(Stdio::null())
        .status()
        .expect("a process")
        .success()
}
