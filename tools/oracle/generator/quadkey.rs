//! Keys: from tile to key, from key to tile, and turned over.
use utiles_core::{self as rust, QuadkeyError};

use crate::paper::{self, DEEPEST};
use crate::record::{List, bytes, xyz};
use crate::sample::{self, Random};
use crate::words;

pub fn write(list: &mut List) {
    for t in sample::every() {
        let (x, y, z) = t;
        let told = (paper::tile(t), 1);
        let run = || bytes(rust::xyz2quadkey(x, y, z).as_bytes());
        list.both("xyz2quadkey", &xyz(t), told, z, run, || bytes(&words::key(t)));
        let run = || bytes(&rust::xyz2quadkey_vec(x, y, z));
        list.both("xyz2quadkey_vec", &xyz(t), told, z, run, || bytes(&words::digits(t)));
    }
    for byte in 0..=255 {
        list.call("is_quadkey_byte", &[byte.into()], 0, 1, || vec![rust::is_quadkey_byte(byte).into()]);
    }
    for key in [keys(), no_keys()].concat() {
        match std::str::from_utf8(&key) {
            Ok(text) => of_text(list, text),
            Err(_) => of_bytes(list, &key),
        }
    }
}

// The Rust takes text. Its empty answer for a bad character is refusal 5, and a key that is too long is refused before. It is not run
// for as many bytes as zoom 30 has digits; longer keys name no tile.
fn of_text(list: &mut List, text: &str) {
    let (key, args) = (text.as_bytes(), bytes(text.as_bytes()));
    let refusal = paper::key(key);
    let zoom = if refusal == 4 { 0 } else { key.len() as u8 };
    list.compare("quadkey2xyz", &args, (refusal, 3), zoom, || read(text), || xyz(words::key_tile(key)));
    let asked = || vec![rust::is_quadkey(text).into()];
    list.both("is_quadkey", &args, (0, 1), zoom, asked, || vec![(refusal == 0).into()]);
    if refusal == 4 {
        return list.refuse("quadkey_flipy", &args, 4, 1);
    }
    let flipped = || {
        let turned = rust::quadkey_flipy(text);
        if turned.is_empty() && !text.is_empty() { Err(5) } else { Ok(bytes(turned.as_bytes())) }
    };
    list.compare("quadkey_flipy", &args, (refusal, 1), zoom, flipped, || bytes(&words::flipped_key(key)));
}

/// What the Rust reads in a text: the tile, or the refusal.
pub fn read(text: &str) -> Result<Vec<u64>, u64> {
    match rust::quadkey2xyz(text) {
        Ok(t) => Ok(xyz(t)),
        Err(QuadkeyError::InvalidLength(_)) => Err(4),
        Err(QuadkeyError::InvalidByte) => Err(5),
    }
}

// What is not UTF-8 cannot be handed to the Rust.
fn of_bytes(list: &mut List, key: &[u8]) {
    let args = bytes(key);
    list.refuse("quadkey2xyz", &args, paper::key(key), 3);
    list.rule("is_quadkey", &args, &[0]);
    list.refuse("quadkey_flipy", &args, paper::key(key), 1);
}

/// Every key of up to four digits, and of each further length the first, the last and six random ones.
pub fn keys() -> Vec<Vec<u8>> {
    let mut random = Random::new();
    let mut keys = vec![vec![]];
    let mut longest: Vec<Vec<u8>> = keys.clone();
    for _ in 1..=4 {
        longest = longest.iter().flat_map(|key| (48..=51).map(move |digit| [&key[..], &[digit]].concat())).collect();
        keys.extend(longest.clone());
    }
    for length in 5..=DEEPEST as usize {
        keys.extend([vec![48; length], vec![51; length]]);
        keys.extend((0..6).map(|_| (0..length).map(|_| 48 + random.below(4) as u8).collect()));
    }
    keys
}

/// A bad byte of each kind at the start, inside and at the end, also of thirty bytes; one more and longer ones; bytes that are not UTF-8.
pub fn no_keys() -> Vec<Vec<u8>> {
    let mut keys = Vec::new();
    for bad in ["/", "4", "3x", " ", "-", "\0", "\n", "\u{7f}", "p", "\u{80}", "é", "０", "😀"] {
        let bad = bad.as_bytes();
        keys.extend([bad.to_vec(), [bad, b"0"].concat(), [b"12", bad, b"3"].concat(), [b"0123", bad].concat()]);
        keys.extend([25, 28, 29, 30].map(|digits| [&vec![48; digits][..], bad].concat()));
        keys.extend([[bad, &[51; 29][..]].concat(), [&[51; 14][..], bad, &[48; 15][..]].concat()]);
    }
    for length in [30, 31, 32, 64, 200] {
        keys.extend([vec![48; length], vec![51; length], vec![52; length]]);
    }
    for bad in [&[128][..], &[176], &[255], &[195], &[240, 159, 152]] {
        keys.extend([bad.to_vec(), [b"01", bad].concat(), [bad, b"3"].concat()]);
        keys.extend([29, 30].map(|digits| [&vec![51; digits][..], bad].concat()));
    }
    keys
}
