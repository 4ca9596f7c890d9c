//! The place of a tile among the four children of its parent.

use crate::answer::{never_refused, value};
use crate::{Tile, ffi};

/// The place of a tile among the four children of its parent. The case's number is the tile's last
/// quadkey digit.
///
/// # Examples
/// ```
/// use noripliers::{SiblingRelationship, Tile};
///
/// assert_eq!(SiblingRelationship::from((3, 5)), SiblingRelationship::LowerRight);
/// assert_eq!(SiblingRelationship::from(Tile::from_quadkey("210")?), SiblingRelationship::UpperLeft);
/// assert_eq!(SiblingRelationship::LowerLeft as u8, 2);
/// # Ok::<(), noripliers::Error>(())
/// ```
#[derive(Clone, Copy, Debug, PartialEq, Eq, Hash)]
pub enum SiblingRelationship {
    /// x and y are even.
    UpperLeft = 0,
    /// x is odd, y even.
    UpperRight = 1,
    /// x is even, y odd.
    LowerLeft = 2,
    /// x and y are odd.
    LowerRight = 3,
}

impl From<(u32, u32)> for SiblingRelationship {
    fn from((x, y): (u32, u32)) -> Self {
        match never_refused(value(|relation| {
            ffi::nori_sibling_relationship(x, y, relation)
        })) {
            0u8 => Self::UpperLeft,
            1 => Self::UpperRight,
            2 => Self::LowerLeft,
            _ => Self::LowerRight,
        }
    }
}

impl From<Tile> for SiblingRelationship {
    fn from(tile: Tile) -> Self {
        Self::from((tile.x(), tile.y()))
    }
}
