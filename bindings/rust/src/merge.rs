//! Merging and settling of lists of tiles. A list is in any order, and what stands in it twice
//! counts once; the answer is in order. More than [`MAX_ENTRIES`](crate::constants::MAX_ENTRIES)
//! tiles are refused by [`Error::TooMany`]. A `minzoom` of `None` is 0.

use crate::answer::{entries, lend, tiles};
use crate::{Error, Tile, lent};

/// One pass of merging: every four siblings of a zoom above `minzoom` become their parent. Gives
/// the tiles, and whether any did.
///
/// # Examples
/// ```
/// use noripliers::{Tile, merge};
///
/// let tiles = Tile::root().children(Some(2))?;
/// let (once, changed) = merge(&tiles, None)?;
/// assert_eq!((once.len(), changed), (4, true));
/// assert_eq!(merge(&once, None)?, (vec![Tile::root()], true));
/// assert_eq!(merge(&once, Some(1))?, (once, false));
/// # Ok::<(), noripliers::Error>(())
/// ```
pub fn merge(tiles: &[Tile], minzoom: Option<u8>) -> Result<(Vec<Tile>, bool), Error> {
    let mut any = false;
    let merged = settled(tiles, |list, out| {
        let (count, changed) = lent::merge(list, minzoom.unwrap_or(0), out)?;
        any = changed;
        Ok(count)
    })?;
    Ok((merged, any))
}

/// Settles a list as utiles' first version did: a tile of a zoom above `minzoom` is dropped where
/// one of its ancestors of zoom 0 to z - 1 - `minzoom` is listed; then [`merge`] until nothing
/// changes.
///
/// # Examples
/// ```
/// use noripliers::{Tile, simplify, simplify_v1};
///
/// let tiles = [Tile::from_quadkey("0")?, Tile::from_quadkey("00")?];
/// assert_eq!(simplify_v1(&tiles, Some(1))?, tiles);
/// assert_eq!(simplify(&tiles, Some(1))?, tiles[..1]);
/// # Ok::<(), noripliers::Error>(())
/// ```
pub fn simplify_v1(tiles: &[Tile], minzoom: Option<u8>) -> Result<Vec<Tile>, Error> {
    settled(tiles, |list, out| {
        lent::simplify_v1(list, minzoom.unwrap_or(0), out)
    })
}

/// Settles a list: a tile with a listed ancestor is dropped, and four siblings become their parent
/// where its zoom is at least `minzoom`, until nothing changes. At 0 the answer is the least list
/// that covers the same ground, which is what an [`Area`](crate::Area) keeps.
///
/// For whoever never pages above a zoom, `minzoom` is a floor: where every tile listed has zoom
/// `minzoom` or more, equal ground gives equal lists, and no list of tiles of zoom `minzoom` or
/// more that covers just that ground is shorter. It is the list settled at 0 with each tile above
/// the floor replaced by its descendants there.
///
/// # Examples
/// ```
/// use noripliers::{Tile, simplify};
///
/// let tiles = Tile::root().children(Some(3))?;
/// assert_eq!(simplify(&tiles, None)?, [Tile::root()]);
/// assert_eq!(simplify(&tiles, Some(1))?.len(), 4);
///
/// // The same ground above the floor 2, by tiles of zoom 2 and 4 and by tiles of zoom 3.
/// let [quarter, beside] = [Tile::from_quadkey("0")?, Tile::from_quadkey("10")?];
/// let planned = [quarter.children(Some(2))?, beside.children(Some(4))?].concat();
/// let surveyed = [quarter.children(Some(3))?, beside.children(Some(3))?].concat();
/// let mut settled = quarter.children(Some(2))?;
/// settled.push(beside);
/// settled.sort();
/// assert_eq!(simplify(&planned, Some(2))?, settled);
/// assert_eq!(simplify(&surveyed, Some(2))?, settled);
/// assert_eq!(simplify(&planned, None)?, [quarter, beside]);
/// # Ok::<(), noripliers::Error>(())
/// ```
pub fn simplify(tiles: &[Tile], minzoom: Option<u8>) -> Result<Vec<Tile>, Error> {
    settled(tiles, |list, out| {
        lent::simplify(list, minzoom.unwrap_or(0), out)
    })
}

fn settled(
    list: &[Tile],
    call: impl FnOnce(&[u64], &mut [u64]) -> Result<usize, Error>,
) -> Result<Vec<Tile>, Error> {
    let list = entries(list);
    lend(list.len(), |out| call(&list, out)).map(|list| tiles(&list))
}
