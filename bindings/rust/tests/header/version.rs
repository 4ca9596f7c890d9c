//! The version, against that of the crate.
use crate::ffi;
use crate::tally::Tally;

pub fn run(tally: &mut Tally) {
    let part = |text: &str| text.parse::<u32>().expect("a number");
    let own = 10_000 * part(env!("CARGO_PKG_VERSION_MAJOR"))
        + 100 * part(env!("CARGO_PKG_VERSION_MINOR"))
        + part(env!("CARGO_PKG_VERSION_PATCH"));
    tally.gives("nori_version", |v| ffi::nori_version(v), own);
}
