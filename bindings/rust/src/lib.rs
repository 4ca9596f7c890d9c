//! The integer arithmetic of map tiles, quadkeys and tile areas: a safe crate over the proved
//! library Noripliers.
//!
//! ```
//! use noripliers::{Area, Tile};
//!
//! let tile = Tile::from_quadkey("213")?;
//! assert_eq!((tile.x(), tile.y(), tile.z()), (3, 5, 3));
//! assert_eq!(tile.parent(None)?.quadkey(), "21");
//!
//! let plan = Area::from_quadkeys(["20", "21", "22", "23"])?;
//! let without = plan.difference(&Area::settle(&[tile])?)?;
//! assert_eq!(without.quadkeys(), ["20", "22", "23", "210", "212", "211"]);
//! # Ok::<(), noripliers::Error>(())
//! ```
//!
//! # What a user of utiles finds
//!
//! Modules and names are those of utiles-core, and so is what comes out, but:
//!
//! - A [`Tile`] and a [`TileZBox`] always are on the map, so their fields are read by methods, and
//!   making one can be refused.
//! - What utiles answers by `None`, by an empty string, by a panic or by a number that has wrapped
//!   round is an [`Error`] with its number. The deepest zoom is 30, and 29 for the numbers of
//!   [`to_id`].
//! - Lists of tiles are slices, and come back as a `Vec` in order, where utiles has hash sets.
//! - The methods of its traits `TileLike`, `TileParent` and `TileChildren1` are the tile's own.
//! - What needs a sine or a logarithm, and what reads or prints text, is not there.
//!
//! [`Area`], [`form`], [`KeyReader`] and [`parent_with_digits`] are not in utiles. [`lent`] has the
//! calls that write to memory of the caller's own.
//!
//! # Panics and the stack
//!
//! No call panics. Where it is proved that a call is never refused, its answer is no [`Result`],
//! and an archive that did refuse it would not be the library's.
//!
//! The calls on lists keep what they sort on the stack of their thread: up to 1.6 MB for lists of
//! more than 4,096 tiles. Any other call needs 256 KB at most. The 2 MiB of a thread that Rust starts
//! are enough for each of them.

mod answer;
#[allow(unsafe_code, reason = "declarations of the archive's functions")]
mod ffi;

// The tests hold every call to this table.
const _: &[(&str, &[u8])] = ffi::REFUSALS;

pub mod area;
pub mod bbox;
pub mod constants;
pub mod errors;
pub mod fns;
pub mod form;
pub mod key_reader;
pub mod lent;
pub mod lnglat;
pub mod merge;
pub mod parent;
pub mod quadkey;
pub mod sibling_relationship;
pub mod tile;
pub mod tile_zbox;
pub mod zoom;

pub use area::Area;
pub use bbox::BBox;
pub use errors::Error;
pub use fns::*;
pub use key_reader::KeyReader;
pub use lnglat::LngLat;
pub use merge::{merge, simplify, simplify_v1};
pub use parent::Parents;
pub use quadkey::*;
pub use sibling_relationship::SiblingRelationship;
pub use tile::Tile;
pub use tile_zbox::{TileZBox, TileZBoxes};
pub use zoom::{ZoomRange, ZoomSet, zset2zvec, zset2zvec_rev, zvec2zset, zvec2zset_rev};
