//! The safe crate and the Rust original on the same random calls, as a user of utiles writes them:
//! options, orders, conversions and lengths. The archive itself is compared with the original by
//! tools/compare.
#[cfg(original)]
extern crate utiles_core;

#[cfg(original)]
mod calls;

#[test]
#[cfg_attr(
    not(original),
    ignore = "UTILES_SRC names no folder that holds crates/utiles-core/src"
)]
fn the_answers_are_those_of_the_original() {
    #[cfg(original)]
    calls::run();
}
