//! The ancestors of a tile, one by one.

use std::iter::FusedIterator;

use crate::answer::{never_refused, value};
use crate::{Error, Tile, ffi};

/// The ancestors of a tile, from the parent to the root.
///
/// # Examples
/// ```
/// use noripliers::{Parents, Tile};
///
/// let parents: Parents = Tile::from_quadkey("213")?.iter_parents();
/// let zooms: Vec<u8> = parents.map(|tile| tile.zoom()).collect();
/// assert_eq!(zooms, [2, 1, 0]);
/// # Ok::<(), noripliers::Error>(())
/// ```
#[derive(Clone, Debug)]
pub struct Parents {
    current: Option<Tile>,
}

/// A tile with the count 1, or the count 0 and zeros.
type Held = (u8, u32, u32, u8);

/// The ancestors of a tile. Refused by [`Error::Zoom`] or [`Error::OffMap`].
///
/// # Examples
/// ```
/// use noripliers::parent::iter_parents;
///
/// assert_eq!(iter_parents(3, 5, 3)?.count(), 3);
/// assert_eq!(iter_parents(0, 0, 0)?.count(), 0);
/// # Ok::<(), noripliers::Error>(())
/// ```
pub fn iter_parents(x: u32, y: u32, z: u8) -> Result<Parents, Error> {
    let first = value(|(count, tx, ty, tz)| ffi::nori_iter_parents(x, y, z, count, tx, ty, tz))?;
    Ok(Parents {
        current: held(first),
    })
}

fn held((count, x, y, z): Held) -> Option<Tile> {
    (count == 1).then(|| never_refused(Tile::new(x, y, z)))
}

impl Iterator for Parents {
    type Item = Tile;

    fn next(&mut self) -> Option<Tile> {
        let (x, y, z) = self.current?.into();
        let (tile, rest): (Held, Held) = never_refused(value(|(tile, rest): &mut (Held, Held)| {
            ffi::nori_parents_next(
                1,
                x,
                y,
                z,
                &mut tile.0,
                &mut tile.1,
                &mut tile.2,
                &mut tile.3,
                &mut rest.0,
                &mut rest.1,
                &mut rest.2,
                &mut rest.3,
            )
        }));
        self.current = held(rest);
        held(tile)
    }
}

impl FusedIterator for Parents {}
