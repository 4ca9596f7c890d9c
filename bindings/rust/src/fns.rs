//! The functions on plain numbers. A call that names a tile is refused by [`Error::Zoom`] or
//! [`Error::OffMap`] where there is none; what else can refuse it is said with it.

use crate::answer::{lend, never_refused, tiles, told, value};
use crate::constants::MAX_DIGITS;
use crate::{Error, Tile, ffi, lent, quadkey, tile};

/// The least and the greatest column, and row, of a zoom. Refused by [`Error::Zoom`].
///
/// # Examples
/// ```
/// assert_eq!(noripliers::minmax(3), Ok((0, 7)));
/// ```
pub fn minmax(zoom: u8) -> Result<(u32, u32), Error> {
    value(|(min, max)| ffi::nori_minmax(zoom, min, max))
}

/// Whether numbers name a tile.
///
/// # Examples
/// ```
/// assert!(noripliers::valid(7, 7, 3));
/// assert!(!noripliers::valid(8, 7, 3));
/// ```
#[must_use]
pub fn valid(x: u32, y: u32, z: u8) -> bool {
    never_refused(told(|told| ffi::nori_valid(x, y, z, told)))
}

/// The row counted from the other side.
///
/// # Examples
/// ```
/// assert_eq!(noripliers::flipy(5, 3), Ok(2));
/// ```
pub fn flipy(y: u32, z: u8) -> Result<u32, Error> {
    value(|row| ffi::nori_flipy(y, z, row))
}

/// The same as [`flipy`].
///
/// # Examples
/// ```
/// assert_eq!(noripliers::yflip(5, 3), noripliers::flipy(5, 3));
/// ```
pub fn yflip(y: u32, z: u8) -> Result<u32, Error> {
    value(|row| ffi::nori_yflip(y, z, row))
}

/// The ancestor 1 + n zooms up; `None` is n = 0, the parent. n is a number of extra steps and not a
/// zoom. Refused by [`Error::NoRelative`] past the root.
///
/// # Examples
/// ```
/// use noripliers::{Error, Tile, parent};
///
/// assert_eq!(parent(3, 5, 3, None), Tile::new(1, 2, 2));
/// assert_eq!(parent(3, 5, 3, Some(2)), Ok(Tile::root()));
/// assert_eq!(parent(3, 5, 3, Some(3)), Err(Error::NoRelative));
/// ```
pub fn parent(x: u32, y: u32, z: u8, n: Option<u8>) -> Result<Tile, Error> {
    ancestor(x, y, z, n, &mut [0; MAX_DIGITS], &mut 0)
}

/// The ancestor of [`parent`], and the quadkey digits of the steps to it, the deepest last: its
/// quadkey followed by them is the tile's.
///
/// # Examples
/// ```
/// use noripliers::{Error, Tile, parent_with_digits, xyz2quadkey};
///
/// let (tile, digits) = parent_with_digits(3, 5, 3, Some(1))?;
/// assert_eq!((tile, digits.as_str()), (Tile::new(0, 1, 1)?, "13"));
/// assert_eq!(tile.quadkey() + &digits, xyz2quadkey(3, 5, 3)?);
/// assert_eq!(parent_with_digits(3, 5, 3, None)?, (Tile::new(1, 2, 2)?, "3".to_owned()));
/// assert_eq!(parent_with_digits(3, 5, 3, Some(3)), Err(Error::NoRelative));
/// # Ok::<(), Error>(())
/// ```
pub fn parent_with_digits(x: u32, y: u32, z: u8, n: Option<u8>) -> Result<(Tile, String), Error> {
    let (mut digits, mut count) = ([0; MAX_DIGITS], 0);
    let tile = ancestor(x, y, z, n, &mut digits, &mut count)?;
    Ok((tile, quadkey::text(digits[..count.into()].to_vec())))
}

/// The ancestor, and through the last two the digits of the steps to it and their count.
fn ancestor(
    x: u32,
    y: u32,
    z: u8,
    n: Option<u8>,
    digits: &mut [u8; MAX_DIGITS],
    count: &mut u8,
) -> Result<Tile, Error> {
    let n = n.unwrap_or(0);
    tile::given(|tx, ty, tz| ffi::nori_parent(x, y, z, n, tx, ty, tz, digits, count))
}

/// The descendants at a zoom, each family clockwise: digits 0, 1, 3, 2. `None` is the next zoom; a
/// zoom of z or less gives the tile itself. Refused by [`Error::Zoom`] for a zoom below the deepest
/// one, and by [`Error::Memory`] where there is not enough for the four times as many tiles of each
/// zoom.
///
/// # Examples
/// ```
/// use noripliers::{Error, Tile, children};
///
/// let tiles = children(1, 2, 2, None)?;
/// let columns_and_rows: Vec<(u32, u32)> = tiles.iter().map(|tile| (tile.x(), tile.y())).collect();
/// assert_eq!(columns_and_rows, [(2, 4), (3, 4), (3, 5), (2, 5)]);
/// assert_eq!(children(1, 2, 2, Some(5))?.len(), 64);
/// assert_eq!(children(1, 2, 2, Some(0))?, [Tile::new(1, 2, 2)?]);
/// assert_eq!(children(1, 2, 2, Some(31)), Err(Error::Zoom));
/// # Ok::<(), Error>(())
/// ```
pub fn children(x: u32, y: u32, z: u8, zoom: Option<u8>) -> Result<Vec<Tile>, Error> {
    descendants(z, zoom, |zoom, out| lent::children(x, y, z, zoom, out))
}

/// The descendants at a zoom as [`children`] gives them, but each family by quadkey digit: 0, 1, 2,
/// 3.
///
/// # Examples
/// ```
/// use noripliers::{Tile, children_zorder};
///
/// let keys: Vec<String> = children_zorder(1, 2, 2, None)?.iter().map(Tile::quadkey).collect();
/// assert_eq!(keys, ["210", "211", "212", "213"]);
/// # Ok::<(), noripliers::Error>(())
/// ```
pub fn children_zorder(x: u32, y: u32, z: u8, zoom: Option<u8>) -> Result<Vec<Tile>, Error> {
    descendants(z, zoom, |zoom, out| {
        lent::children_zorder(x, y, z, zoom, out)
    })
}

/// Asks without memory first, so that none is fetched for a call that is refused for another
/// reason.
fn descendants(
    z: u8,
    zoom: Option<u8>,
    call: impl Fn(u8, &mut [u64]) -> Result<usize, Error>,
) -> Result<Vec<Tile>, Error> {
    let zoom = zoom.unwrap_or(z.saturating_add(1));
    match call(zoom, &mut []) {
        Err(error) if error != Error::Memory => Err(error),
        _ => {
            let steps = zoom.saturating_sub(z);
            let places = 4usize.checked_pow(steps.into()).ok_or(Error::Memory)?;
            lend(places, |out| call(zoom, out)).map(|list| tiles(&list))
        }
    }
}

/// The four children by quadkey digit: 0, 1, 2, 3. Refused by [`Error::Zoom`] also at the deepest
/// zoom.
///
/// # Examples
/// ```
/// use noripliers::{Tile, children1_zorder};
///
/// assert_eq!(children1_zorder(1, 2, 2)?.map(|tile| tile.quadkey()), ["210", "211", "212", "213"]);
/// # Ok::<(), noripliers::Error>(())
/// ```
pub fn children1_zorder(x: u32, y: u32, z: u8) -> Result<[Tile; 4], Error> {
    let mut list = [0; 4];
    lent::children1_zorder(x, y, z, &mut list)?;
    Ok(list.map(|entry| never_refused(Tile::from_entry(entry))))
}

/// The three other children of the parent: beside, above or below, across. Refused by
/// [`Error::NoRelative`] at the root.
///
/// # Examples
/// ```
/// use noripliers::siblings;
///
/// let columns_and_rows: Vec<(u32, u32)> = siblings(3, 5, 3)?.iter().map(|tile| (tile.x(), tile.y())).collect();
/// assert_eq!(columns_and_rows, [(2, 5), (3, 4), (2, 4)]);
/// # Ok::<(), noripliers::Error>(())
/// ```
pub fn siblings(x: u32, y: u32, z: u8) -> Result<Vec<Tile>, Error> {
    lend(3, |out| lent::siblings(x, y, z, out)).map(|list| tiles(&list))
}

/// The tiles around a tile, up to eight; at zoom 1 the siblings, at zoom 0 none.
///
/// # Examples
/// ```
/// use noripliers::neighbors;
///
/// let columns_and_rows: Vec<(u32, u32)> = neighbors(3, 0, 2)?.iter().map(|tile| (tile.x(), tile.y())).collect();
/// assert_eq!(columns_and_rows, [(3, 1), (2, 0), (2, 1)]);
/// # Ok::<(), noripliers::Error>(())
/// ```
pub fn neighbors(x: u32, y: u32, z: u8) -> Result<Vec<Tile>, Error> {
    lend(8, |out| lent::neighbors(x, y, z, out)).map(|list| tiles(&list))
}

/// The tiles around a tile, also those across the map's left and right edge.
///
/// # Examples
/// ```
/// use noripliers::neighbors_wrap_x;
///
/// let columns_and_rows: Vec<(u32, u32)> = neighbors_wrap_x(3, 0, 2)?.iter().map(|tile| (tile.x(), tile.y())).collect();
/// assert_eq!(columns_and_rows, [(2, 0), (2, 1), (3, 1), (0, 0), (0, 1)]);
/// # Ok::<(), noripliers::Error>(())
/// ```
pub fn neighbors_wrap_x(x: u32, y: u32, z: u8) -> Result<Vec<Tile>, Error> {
    lend(8, |out| lent::neighbors_wrap_x(x, y, z, out)).map(|list| tiles(&list))
}

/// The first bit from the top, counted from 0, in which west differs from east or south from north;
/// at most 28.
///
/// # Examples
/// ```
/// assert_eq!(noripliers::bbox2zoom((0, 0, 1 << 31, 0)), 0);
/// assert_eq!(noripliers::bbox2zoom((7, 7, 7, 7)), 28);
/// ```
#[must_use]
pub fn bbox2zoom((west, south, east, north): (u32, u32, u32, u32)) -> u8 {
    never_refused(value(|zoom| {
        ffi::nori_bbox2zoom(west, south, east, north, zoom)
    }))
}

/// The number (2^(z + 1) · y + x) · 32 + z. For lists take [`Tile::entry`]. Refused by
/// [`Error::Zoom`] also at zoom 30, whose numbers would not fit 64 bits.
///
/// # Examples
/// ```
/// use noripliers::{Error, to_id};
///
/// assert_eq!(to_id(3, 5, 3), Ok(2659));
/// assert_eq!(to_id(0, 0, 30), Err(Error::Zoom));
/// ```
pub fn to_id(x: u32, y: u32, z: u8) -> Result<u64, Error> {
    value(|id| ffi::nori_to_id(x, y, z, id))
}

/// The tile of a number of [`to_id`]. Refused by [`Error::NoTile`], also where the low five bits,
/// which are the zoom, are 30.
///
/// # Examples
/// ```
/// use noripliers::{Error, Tile, from_id};
///
/// assert_eq!(from_id(2659), Tile::new(3, 5, 3));
/// assert_eq!(from_id(30), Err(Error::NoTile));
/// ```
pub fn from_id(id: u64) -> Result<Tile, Error> {
    tile::given(|x, y, z| ffi::nori_from_id(id, x, y, z))
}

/// The number that counts row by row, zoom by zoom.
///
/// # Examples
/// ```
/// assert_eq!(noripliers::xyz2rmid(0, 0, 0), Ok(0));
/// assert_eq!(noripliers::xyz2rmid(3, 5, 3), Ok(64));
/// ```
pub fn xyz2rmid(x: u32, y: u32, z: u8) -> Result<u64, Error> {
    value(|rmid| ffi::nori_xyz2rmid(x, y, z, rmid))
}

/// x, y and z of a number of [`xyz2rmid`]. Refused by [`Error::NoTile`].
///
/// # Examples
/// ```
/// assert_eq!(noripliers::rmid2xyz(64), Ok((3, 5, 3)));
/// ```
pub fn rmid2xyz(rmid: u64) -> Result<(u32, u32, u8), Error> {
    Tile::from_row_major_id(rmid).map(Into::into)
}

/// The place within its zoom of a number of [`xyz2rmid`], and the zoom. Refused by
/// [`Error::NoTile`].
///
/// # Examples
/// ```
/// assert_eq!(noripliers::int_2_offset_zoom(64), Ok((43, 3)));
/// ```
pub fn int_2_offset_zoom(rmid: u64) -> Result<(u64, u8), Error> {
    value(|(offset, zoom)| ffi::nori_int_2_offset_zoom(rmid, offset, zoom))
}
