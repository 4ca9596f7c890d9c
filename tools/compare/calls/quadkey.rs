//! Keys: from tile to key, from key to tile, and turned over. The Rust takes text, so every key is UTF-8.
use utiles_core::{self as rust, QuadkeyError};

use crate::ffi::*;
use crate::inputs;
use crate::memory::{Placed, junk, lend, placed, refused, value, written};
use crate::paper::{COMPARED, DEEPEST};
use crate::sample::Random;
use crate::tally::Tally;

pub fn compare(tally: &mut Tally, random: &mut Random) {
    of_tile(tally, random);
    of_key(tally, random);
    let byte = random.below(256) as u8;
    let ours = value(9, |told| nori_is_quadkey_byte(byte, told));
    tally.call("is_quadkey_byte", byte, ours, || (0, rust::is_quadkey_byte(byte).into()));
}

fn of_tile(tally: &mut Tally, random: &mut Random) {
    let t = inputs::tile(random);
    let (x, y, z) = t;
    let junk = junk(random, z.into(), |n| n as u8);
    let ours = lend(&junk, |out, places, count| unsafe { nori_xyz2quadkey(x, y, z, out, places, count) });
    tally.call("xyz2quadkey", t, ours, || written(&junk, rust::xyz2quadkey(x, y, z).as_bytes()));
    let ours = lend(&junk, |out, places, count| unsafe { nori_xyz2quadkey_vec(x, y, z, out, places, count) });
    tally.call("xyz2quadkey_vec", t, ours, || written(&junk, &rust::xyz2quadkey_vec(x, y, z)));
}

// Too long is 4, a bad character 5. Turned over, a bad character makes the Rust's text empty, and what is longer than it
// has zooms is not compared.
fn of_key(tally: &mut Tally, random: &mut Random) {
    // As many bytes as zoom 30 has digits are the Rust's to refuse, and not ours.
    let text = loop {
        let text = key(random);
        if text.len() != usize::from(DEEPEST) {
            break text;
        }
    };
    let (key, n) = (text.as_ptr(), text.len());
    let ours = placed(|x, y, z| unsafe { nori_quadkey2xyz(key, n, x, y, z) });
    tally.call("quadkey2xyz", &text, ours, || tile_of(&text));
    let ours = placed(|x, y, z| fed(text.as_bytes(), x, y, z));
    tally.call("key_tile", &text, ours, || tile_of(&text));
    let ours = value(9, |told| unsafe { nori_is_quadkey(key, n, told) });
    tally.call("is_quadkey", &text, ours, || (0, rust::is_quadkey(&text).into()));
    if n > COMPARED.into() {
        return;
    }
    let junk = junk(random, n, |n| n as u8);
    let ours = lend(&junk, |out, places, count| unsafe { nori_quadkey_flipy(key, n, out, places, count) });
    tally.call("quadkey_flipy", &text, ours, || match rust::quadkey_flipy(&text) {
        turned if turned.is_empty() && n > 0 => refused(5, &junk),
        turned => written(&junk, turned.as_bytes()),
    });
}

// What the reader tells that was fed each byte. The Rust has none: it is held to what the Rust answers for the whole key.
fn fed(key: &[u8], x: &mut u32, y: &mut u32, z: &mut u8) -> u8 {
    let (mut column, mut row, mut count, mut bad) = (0, 0, 0, 0);
    for &byte in key {
        let number = nori_key_feed(byte, &mut column, &mut row, &mut count, &mut bad);
        if number != 0 {
            return number;
        }
    }
    nori_key_tile(column, row, count, bad, x, y, z)
}

fn tile_of(text: &str) -> Placed {
    match rust::quadkey2xyz(text) {
        Ok(t) => (0, t),
        Err(QuadkeyError::InvalidLength(_)) => (4, (0, 0, 0)),
        Err(QuadkeyError::InvalidByte) => (5, (0, 0, 0)),
    }
}

// A key of any length up to a few digits too many; two times in five with a character of one to four bytes in it that
// is no digit.
fn key(random: &mut Random) -> String {
    let length = random.below(u64::from(DEEPEST) + 4);
    let mut key: Vec<char> = (0..length).map(|_| random.pick(&['0', '1', '2', '3'])).collect();
    if random.below(5) < 2 {
        let bad = random.pick(&['/', '4', ' ', '-', '\0', '\n', '\u{7f}', 'p', '\u{80}', 'é', '０', '😀']);
        key.insert(random.below(length + 1) as usize, bad);
    }
    key.into_iter().collect()
}
