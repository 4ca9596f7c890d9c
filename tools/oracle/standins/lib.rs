//! Stands in for the missing root of utiles-core: the modules, the names that they ask of the root, and what the derive of
//! `thiserror` would write for `#[from]`.
#[macro_use]
mod macros;

pub mod bbox;
pub mod constants;
pub mod errors;
pub mod fns;
mod from;
pub mod lnglat;
pub mod merge;
pub mod parent;
mod parsing;
pub mod point;
mod projection;
pub mod quadkey;
pub mod sibling_relationship;
pub mod tile;
mod tile_feature;
pub mod tile_like;
mod tile_tuple;
pub mod tile_zbox;
pub mod traits;
pub mod zoom;

pub use bbox::BBox;
pub use errors::{UtilesCoreError, UtilesCoreResult};
pub use fns::*;
pub use lnglat::LngLat;
pub use point::Point2d;
pub use quadkey::*;
pub use tile::Tile;
pub use tile_like::TileLike;
pub use tile_zbox::TileZBox;
pub use traits::{IsOk, TileChildren1, TileParent};

impl From<QuadkeyError> for UtilesCoreError {
    fn from(error: QuadkeyError) -> Self {
        Self::Quadkey(error)
    }
}

impl From<serde_json::Error> for UtilesCoreError {
    fn from(error: serde_json::Error) -> Self {
        Self::SerdeJsonError(error)
    }
}

impl From<std::num::TryFromIntError> for UtilesCoreError {
    fn from(error: std::num::TryFromIntError) -> Self {
        Self::TryFromIntError(error)
    }
}
