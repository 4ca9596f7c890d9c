//! The calls on lists, keys and lines in memory that the caller lends, one for each such function
//! of the C header. Nothing is allocated here.
//!
//! An answer is written to the front of `out`, and its count comes back. What stands behind it is
//! left as it was, but `merge`, both settlings, `union` and `common_part` need as many places as
//! their lists have entries together, and set those behind the answer to 0. A call that is refused
//! leaves all memory as it was, and memory that is too short refuses it by [`Error::Memory`].
//!
//! A list holds an [entry](Tile::entry) for each tile; another number refuses the call by
//! [`Error::NoTile`], and more than [`MAX_ENTRIES`](crate::constants::MAX_ENTRIES) of them by
//! [`Error::TooMany`].
#![allow(
    unsafe_code,
    reason = "the one place where pointers and counts are handed to the archive"
)]

use crate::answer::{accepted, count, never_refused, told, value};
use crate::constants::KEPT;
use crate::{Error, Tile, TileZBox, ffi, tile, tile_zbox};

// SAFETY, for every call below: a pointer and the count behind it are those of one slice, which is
// borrowed until the call is over; what is written is borrowed by nobody else. The archive keeps no
// pointer, and reads and writes within the count only.

/// The key of a tile, in as many places as its zoom. Refused also by [`Error::Zoom`] and
/// [`Error::OffMap`].
///
/// # Examples
/// ```
/// let mut out = *b"......";
/// assert_eq!(noripliers::lent::xyz2quadkey(3, 5, 3, &mut out), Ok(3));
/// assert_eq!(&out, b"213...");
/// ```
pub fn xyz2quadkey(x: u32, y: u32, z: u8, out: &mut [u8]) -> Result<usize, Error> {
    // SAFETY: as said above.
    count(|count| unsafe { ffi::nori_xyz2quadkey(x, y, z, out.as_mut_ptr(), out.len(), count) })
}

/// The key of a tile as numbers from 0 to 3. See [`xyz2quadkey`].
///
/// # Examples
/// ```
/// let mut out = [9; 4];
/// assert_eq!(noripliers::lent::xyz2quadkey_vec(3, 5, 3, &mut out), Ok(3));
/// assert_eq!(out, [2, 1, 3, 9]);
/// ```
pub fn xyz2quadkey_vec(x: u32, y: u32, z: u8, out: &mut [u8]) -> Result<usize, Error> {
    // SAFETY: as said above.
    count(|count| unsafe { ffi::nori_xyz2quadkey_vec(x, y, z, out.as_mut_ptr(), out.len(), count) })
}

/// The tile of a key. Refused by [`Error::KeyLength`] or [`Error::KeyByte`].
///
/// # Examples
/// ```
/// use noripliers::{Tile, lent};
///
/// assert_eq!(lent::quadkey2xyz(b"213"), Tile::new(3, 5, 3));
/// ```
pub fn quadkey2xyz(key: &[u8]) -> Result<Tile, Error> {
    // SAFETY: as said above.
    tile::given(|x, y, z| unsafe { ffi::nori_quadkey2xyz(key.as_ptr(), key.len(), x, y, z) })
}

/// Whether bytes are a key, and if not, why: [`Error::KeyLength`] or [`Error::KeyByte`].
///
/// # Examples
/// ```
/// use noripliers::{Error, lent};
///
/// assert_eq!(lent::quadkey_check(b"213"), Ok(()));
/// assert_eq!(lent::quadkey_check(b"214"), Err(Error::KeyByte));
/// ```
pub fn quadkey_check(key: &[u8]) -> Result<(), Error> {
    // SAFETY: as said above.
    accepted(unsafe { ffi::nori_quadkey_check(key.as_ptr(), key.len()) })
}

/// Whether bytes are a key.
///
/// # Examples
/// ```
/// assert!(noripliers::lent::is_quadkey(b"213"));
/// ```
#[must_use]
pub fn is_quadkey(key: &[u8]) -> bool {
    // SAFETY: as said above.
    never_refused(told(|told| unsafe {
        ffi::nori_is_quadkey(key.as_ptr(), key.len(), told)
    }))
}

/// The key of the tile with its row counted from the other side, in as many places as the key has.
/// Refused also by [`Error::KeyLength`] and [`Error::KeyByte`].
///
/// # Examples
/// ```
/// let mut out = *b"......";
/// assert_eq!(noripliers::lent::quadkey_flipy(b"213", &mut out), Ok(3));
/// assert_eq!(&out, b"031...");
/// ```
pub fn quadkey_flipy(key: &[u8], out: &mut [u8]) -> Result<usize, Error> {
    // SAFETY: as said above.
    count(|count| unsafe {
        ffi::nori_quadkey_flipy(key.as_ptr(), key.len(), out.as_mut_ptr(), out.len(), count)
    })
}

/// The key of the ancestor at zoom n, a part of the caller's own bytes. Refused by
/// [`Error::NoRelative`] where the key is shorter, else by [`Error::KeyLength`] or
/// [`Error::KeyByte`].
///
/// # Examples
/// ```
/// use noripliers::{Error, lent};
///
/// assert_eq!(lent::ancestor_key(b"213", 2), Ok(&b"21"[..]));
/// assert_eq!(lent::ancestor_key(b"213", 4), Err(Error::NoRelative));
/// ```
pub fn ancestor_key(key: &[u8], n: usize) -> Result<&[u8], Error> {
    // SAFETY: as said above.
    count(|length| unsafe { ffi::nori_ancestor_key(key.as_ptr(), key.len(), n, length) })
        .map(|length| &key[..length])
}

/// The key of the deepest ancestor that two tiles share, a part of the first key's own bytes.
/// Refused by [`Error::KeyLength`] or [`Error::KeyByte`].
///
/// # Examples
/// ```
/// assert_eq!(noripliers::lent::shared_key(b"2132", b"210"), Ok(&b"21"[..]));
/// ```
pub fn shared_key<'a>(a: &'a [u8], b: &[u8]) -> Result<&'a [u8], Error> {
    // SAFETY: as said above.
    count(|length| unsafe {
        ffi::nori_shared_key(a.as_ptr(), a.len(), b.as_ptr(), b.len(), length)
    })
    .map(|length| &a[..length])
}

/// The descendants at a zoom, each family clockwise, in 4^(zoom - z) places; a zoom of z or less
/// gives the tile itself. Refused also by [`Error::Zoom`], of the tile and of the descendants, and
/// [`Error::OffMap`].
///
/// # Examples
/// ```
/// use noripliers::{Tile, lent};
///
/// let mut out = [0; 4];
/// assert_eq!(lent::children(0, 0, 0, 1, &mut out), Ok(4));
/// assert_eq!(out.map(|entry| Tile::from_entry(entry).unwrap().quadkey()), ["0", "1", "3", "2"]);
/// ```
pub fn children(x: u32, y: u32, z: u8, zoom: u8, out: &mut [u64]) -> Result<usize, Error> {
    // SAFETY: as said above.
    count(|count| unsafe { ffi::nori_children(x, y, z, zoom, out.as_mut_ptr(), out.len(), count) })
}

/// The descendants at a zoom as [`children`] gives them, but each family by quadkey digit.
///
/// # Examples
/// ```
/// use noripliers::{Tile, lent};
///
/// let mut out = [0; 4];
/// assert_eq!(lent::children_zorder(0, 0, 0, 1, &mut out), Ok(4));
/// assert_eq!(out.map(|entry| Tile::from_entry(entry).unwrap().quadkey()), ["0", "1", "2", "3"]);
/// ```
pub fn children_zorder(x: u32, y: u32, z: u8, zoom: u8, out: &mut [u64]) -> Result<usize, Error> {
    // SAFETY: as said above.
    count(|count| unsafe {
        ffi::nori_children_zorder(x, y, z, zoom, out.as_mut_ptr(), out.len(), count)
    })
}

/// The four children by quadkey digit. Refused also by [`Error::Zoom`] and [`Error::OffMap`].
///
/// # Examples
/// ```
/// use noripliers::{Tile, lent};
///
/// let mut out = [0; 4];
/// assert_eq!(lent::children1_zorder(3, 5, 3, &mut out), Ok(4));
/// assert_eq!(out.map(|entry| Tile::from_entry(entry).unwrap().quadkey()), ["2130", "2131", "2132", "2133"]);
/// ```
pub fn children1_zorder(x: u32, y: u32, z: u8, out: &mut [u64]) -> Result<usize, Error> {
    // SAFETY: as said above.
    count(|count| unsafe {
        ffi::nori_children1_zorder(x, y, z, out.as_mut_ptr(), out.len(), count)
    })
}

/// The three other children of the parent. Refused also by [`Error::Zoom`], [`Error::OffMap`] and,
/// at the root, [`Error::NoRelative`].
///
/// # Examples
/// ```
/// use noripliers::{Tile, lent};
///
/// let mut out = [0; 3];
/// assert_eq!(lent::siblings(3, 5, 3, &mut out), Ok(3));
/// assert_eq!(out.map(|entry| Tile::from_entry(entry).unwrap().quadkey()), ["212", "211", "210"]);
/// ```
pub fn siblings(x: u32, y: u32, z: u8, out: &mut [u64]) -> Result<usize, Error> {
    // SAFETY: as said above.
    count(|count| unsafe { ffi::nori_siblings(x, y, z, out.as_mut_ptr(), out.len(), count) })
}

/// The tiles around a tile, up to eight. Refused also by [`Error::Zoom`] and [`Error::OffMap`].
///
/// # Examples
/// ```
/// let mut out = [0; 8];
/// assert_eq!(noripliers::lent::neighbors(3, 0, 2, &mut out), Ok(3));
/// ```
pub fn neighbors(x: u32, y: u32, z: u8, out: &mut [u64]) -> Result<usize, Error> {
    // SAFETY: as said above.
    count(|count| unsafe { ffi::nori_neighbors(x, y, z, out.as_mut_ptr(), out.len(), count) })
}

/// The tiles around a tile, up to eight, also those across the map's left and right edge. Refused
/// also by [`Error::Zoom`] and [`Error::OffMap`].
///
/// # Examples
/// ```
/// let mut out = [0; 8];
/// assert_eq!(noripliers::lent::neighbors_wrap_x(3, 0, 2, &mut out), Ok(5));
/// ```
pub fn neighbors_wrap_x(x: u32, y: u32, z: u8, out: &mut [u64]) -> Result<usize, Error> {
    // SAFETY: as said above.
    count(|count| unsafe {
        ffi::nori_neighbors_wrap_x(x, y, z, out.as_mut_ptr(), out.len(), count)
    })
}

/// The least box of a list's tiles. Refused also by [`Error::EmptyList`] and [`Error::MixedZooms`].
///
/// # Examples
/// ```
/// use noripliers::{Tile, TileZBox, lent};
///
/// let list = [Tile::new(3, 5, 3)?.entry(), Tile::new(1, 6, 3)?.entry()];
/// assert_eq!(lent::from_tiles(&list), TileZBox::new(1, 3, 5, 6, 3));
/// # Ok::<(), noripliers::Error>(())
/// ```
pub fn from_tiles(list: &[u64]) -> Result<TileZBox, Error> {
    tile_zbox::given(|zoom, minx, maxx, miny, maxy| {
        // SAFETY: as said above.
        unsafe {
            ffi::nori_zbox_from_tiles(list.as_ptr(), list.len(), zoom, minx, maxx, miny, maxy)
        }
    })
}

/// How many tiles boxes have together; five numbers are a box: zoom, least x, greatest x, least y,
/// greatest y. Refused by [`Error::Zoom`], [`Error::TooMany`] or [`Error::NoBox`].
///
/// # Examples
/// ```
/// assert_eq!(noripliers::lent::boxes_length(&[3, 1, 3, 5, 6, 0, 0, 0, 0, 0]), Ok(7));
/// ```
pub fn boxes_length(boxes: &[u32]) -> Result<u64, Error> {
    // SAFETY: as said above.
    value(|length| unsafe { ffi::nori_zboxes_length(boxes.as_ptr(), boxes.len(), length) })
}

/// The tile of boxes of five numbers as in [`boxes_length`] that stands behind the first `before`
/// ones, box by box, and how many tiles are given then; none behind the last. Refused by
/// [`Error::Zoom`], [`Error::TooMany`] or [`Error::NoBox`].
///
/// # Examples
/// ```
/// use noripliers::{Error, Tile, lent};
///
/// let boxes = [3, 1, 3, 5, 6, 0, 0, 0, 0, 0];
/// assert_eq!(lent::boxes_next(&boxes, 5), Ok((Some(Tile::new(3, 6, 3)?), 6)));
/// assert_eq!(lent::boxes_next(&boxes, 6), Ok((Some(Tile::root()), 7)));
/// assert_eq!(lent::boxes_next(&boxes, 7), Ok((None, 7)));
/// assert_eq!(lent::boxes_next(&boxes, 8), Err(Error::NoBox));
/// # Ok::<(), Error>(())
/// ```
pub fn boxes_next(boxes: &[u32], before: u64) -> Result<(Option<Tile>, u64), Error> {
    let (many, x, y, z, after): (u8, u32, u32, u8, u64) = value(|(many, x, y, z, after)| {
        // SAFETY: as said above.
        unsafe { ffi::nori_zboxes_next(boxes.as_ptr(), boxes.len(), before, many, x, y, z, after) }
    })?;
    let tile = (many == 1).then(|| never_refused(Tile::new(x, y, z)));
    Ok((tile, after))
}

/// Boxes of five numbers as in [`boxes_length`], each with its rows counted from the other side.
///
/// # Examples
/// ```
/// let mut out = [9; 6];
/// assert_eq!(noripliers::lent::boxes_flipy(&[3, 1, 3, 5, 6], &mut out), Ok(5));
/// assert_eq!(out, [3, 1, 3, 1, 2, 9]);
/// ```
pub fn boxes_flipy(boxes: &[u32], out: &mut [u32]) -> Result<usize, Error> {
    // SAFETY: as said above.
    count(|count| unsafe {
        ffi::nori_zboxes_flipy(
            boxes.as_ptr(),
            boxes.len(),
            out.as_mut_ptr(),
            out.len(),
            count,
        )
    })
}

/// The zooms of a set's number, in order; a set with bit 31 is read the other way round, zoom i as
/// bit 30 - i.
///
/// # Examples
/// ```
/// let mut out = [9; 4];
/// assert_eq!(noripliers::lent::zset2zvec(0b100_001, &mut out), Ok(2));
/// assert_eq!(out, [0, 5, 9, 9]);
/// ```
pub fn zset2zvec(zset: u32, out: &mut [u8]) -> Result<usize, Error> {
    // SAFETY: as said above.
    count(|count| unsafe { ffi::nori_zset2zvec(zset, out.as_mut_ptr(), out.len(), count) })
}

/// The zooms of a set's number that is turned round first.
///
/// # Examples
/// ```
/// let mut out = [9; 4];
/// assert_eq!(noripliers::lent::zset2zvec_rev(1 << 30, &mut out), Ok(1));
/// assert_eq!(out, [0, 9, 9, 9]);
/// ```
pub fn zset2zvec_rev(zset: u32, out: &mut [u8]) -> Result<usize, Error> {
    // SAFETY: as said above.
    count(|count| unsafe { ffi::nori_zset2zvec_rev(zset, out.as_mut_ptr(), out.len(), count) })
}

/// The number of a set: bit i is zoom i. Refused by [`Error::Zoom`] above zoom 30, and by
/// [`Error::TooMany`].
///
/// # Examples
/// ```
/// assert_eq!(noripliers::zvec2zset(&[0, 5]), Ok(33));
/// ```
pub fn zvec2zset(zvec: &[u8]) -> Result<u32, Error> {
    // SAFETY: as said above.
    value(|zset| unsafe { ffi::nori_zvec2zset(zvec.as_ptr(), zvec.len(), zset) })
}

/// The number of a set the other way round: bit 31 - i is zoom i. Refused as [`zvec2zset`] is.
///
/// # Examples
/// ```
/// assert_eq!(noripliers::zvec2zset_rev(&[0, 5]), Ok(1 << 31 | 1 << 26));
/// ```
pub fn zvec2zset_rev(zvec: &[u8]) -> Result<u32, Error> {
    // SAFETY: as said above.
    value(|zset| unsafe { ffi::nori_zvec2zset_rev(zvec.as_ptr(), zvec.len(), zset) })
}

/// The maximal runs of a set's zooms from 0 to 30, rising: the lowest zoom of each run, and beside it
/// the highest. 16 places in each list are enough for any set.
///
/// # Examples
/// ```
/// let (mut lows, mut highs) = ([9; 3], [9; 3]);
/// assert_eq!(noripliers::lent::zoom_ranges(0b10_111, &mut lows, &mut highs), Ok(2));
/// assert_eq!((lows, highs), ([0, 4, 9], [2, 4, 9]));
/// ```
pub fn zoom_ranges(zset: u32, lows: &mut [u8], highs: &mut [u8]) -> Result<usize, Error> {
    count(|count| {
        // SAFETY: as said above.
        unsafe {
            ffi::nori_zoom_ranges(
                zset,
                lows.as_mut_ptr(),
                lows.len(),
                highs.as_mut_ptr(),
                highs.len(),
                count,
            )
        }
    })
}

/// The number of [`ZoomSet::from_zooms`](crate::ZoomSet::from_zooms).
///
/// # Examples
/// ```
/// assert_eq!(noripliers::lent::from_zooms(&[0, 5]), Ok(33));
/// ```
pub fn from_zooms(zooms: &[u8]) -> Result<u32, Error> {
    // SAFETY: as said above.
    value(|zset| unsafe { ffi::nori_zset_from_zooms(zooms.as_ptr(), zooms.len(), zset) })
}

/// The zooms of [`ZoomSet::to_zooms`](crate::ZoomSet::to_zooms).
///
/// # Examples
/// ```
/// let mut out = [9; 4];
/// assert_eq!(noripliers::lent::to_zooms(33, &mut out), Ok(2));
/// assert_eq!(out, [0, 5, 9, 9]);
/// ```
pub fn to_zooms(zset: u32, out: &mut [u8]) -> Result<usize, Error> {
    // SAFETY: as said above.
    count(|count| unsafe { ffi::nori_zset_to_zooms(zset, out.as_mut_ptr(), out.len(), count) })
}

/// The runs of [`ZoomSet::zoom_ranges`](crate::ZoomSet::zoom_ranges).
///
/// # Examples
/// ```
/// let (mut lows, mut highs) = ([9; 3], [9; 3]);
/// assert_eq!(noripliers::lent::set_zoom_ranges(0b10_111, &mut lows, &mut highs), Ok(2));
/// assert_eq!((lows, highs), ([0, 4, 9], [2, 4, 9]));
/// ```
pub fn set_zoom_ranges(zset: u32, lows: &mut [u8], highs: &mut [u8]) -> Result<usize, Error> {
    count(|count| {
        // SAFETY: as said above.
        unsafe {
            ffi::nori_zset_zoom_ranges(
                zset,
                lows.as_mut_ptr(),
                lows.len(),
                highs.as_mut_ptr(),
                highs.len(),
                count,
            )
        }
    })
}

/// One pass of merging: every four siblings of a zoom above `minzoom` become their parent. Gives
/// the count, and whether any did.
///
/// # Examples
/// ```
/// use noripliers::{Tile, lent};
///
/// let list: Vec<u64> = Tile::root().children(Some(2))?.iter().map(Tile::entry).collect();
/// let mut out = [0; 16];
/// assert_eq!(lent::merge(&list, 0, &mut out), Ok((4, true)));
/// # Ok::<(), noripliers::Error>(())
/// ```
pub fn merge(list: &[u64], minzoom: u8, out: &mut [u64]) -> Result<(usize, bool), Error> {
    let (count, changed): (u64, u8) = value(|(count, changed)| {
        // SAFETY: as said above.
        unsafe {
            ffi::nori_merge(
                list.as_ptr(),
                list.len(),
                minzoom,
                out.as_mut_ptr(),
                out.len(),
                count,
                changed,
            )
        }
    })?;
    Ok((count as usize, changed != 0))
}

/// Settles a list as utiles' first version did: see [`simplify_v1`](fn@crate::simplify_v1).
///
/// # Examples
/// ```
/// use noripliers::{Tile, lent};
///
/// let list = [Tile::from_quadkey("0")?.entry(), Tile::from_quadkey("00")?.entry()];
/// assert_eq!(lent::simplify_v1(&list, 1, &mut [0; 2]), Ok(2));
/// # Ok::<(), noripliers::Error>(())
/// ```
pub fn simplify_v1(list: &[u64], minzoom: u8, out: &mut [u64]) -> Result<usize, Error> {
    count(|count| {
        // SAFETY: as said above.
        unsafe {
            ffi::nori_simplify_v1(
                list.as_ptr(),
                list.len(),
                minzoom,
                out.as_mut_ptr(),
                out.len(),
                count,
            )
        }
    })
}

/// Settles a list: see [`simplify`](fn@crate::simplify).
///
/// # Examples
/// ```
/// use noripliers::{Tile, lent};
///
/// let list = [Tile::from_quadkey("0")?.entry(), Tile::from_quadkey("00")?.entry()];
/// assert_eq!(lent::simplify(&list, 1, &mut [0; 2]), Ok(1));
/// # Ok::<(), noripliers::Error>(())
/// ```
pub fn simplify(list: &[u64], minzoom: u8, out: &mut [u64]) -> Result<usize, Error> {
    count(|count| {
        // SAFETY: as said above.
        unsafe {
            ffi::nori_simplify(
                list.as_ptr(),
                list.len(),
                minzoom,
                out.as_mut_ptr(),
                out.len(),
                count,
            )
        }
    })
}

/// Whether a list is settled: strictly in order, no tile beside its own ancestor, no four siblings
/// together.
///
/// # Examples
/// ```
/// use noripliers::{Tile, lent};
///
/// assert_eq!(lent::is_settled(&[Tile::root().entry()]), Ok(true));
/// assert_eq!(lent::is_settled(&[Tile::root().entry(); 2]), Ok(false));
/// ```
pub fn is_settled(list: &[u64]) -> Result<bool, Error> {
    // SAFETY: as said above.
    told(|settled| unsafe { ffi::nori_is_settled(list.as_ptr(), list.len(), settled) })
}

/// The settled list of what is in either of two settled lists. Refused also by
/// [`Error::NotSettled`], as [`common_part`] and [`difference`] are.
///
/// # Examples
/// ```
/// use noripliers::{Tile, lent};
///
/// let (a, b) = ([Tile::from_quadkey("0")?.entry()], [Tile::from_quadkey("1")?.entry()]);
/// let mut out = [9; 3];
/// assert_eq!(lent::union(&a, &b, &mut out), Ok(2));
/// assert_eq!(out, [a[0], b[0], 9]);
/// # Ok::<(), noripliers::Error>(())
/// ```
pub fn union(a: &[u64], b: &[u64], out: &mut [u64]) -> Result<usize, Error> {
    count(|count| {
        // SAFETY: as said above.
        unsafe {
            ffi::nori_union(
                a.as_ptr(),
                a.len(),
                b.as_ptr(),
                b.len(),
                out.as_mut_ptr(),
                out.len(),
                count,
            )
        }
    })
}

/// The settled list of what is in both of two settled lists.
///
/// # Examples
/// ```
/// use noripliers::{Tile, lent};
///
/// let (a, b) = ([Tile::from_quadkey("0")?.entry()], [Tile::from_quadkey("01")?.entry()]);
/// let mut out = [9; 3];
/// assert_eq!(lent::common_part(&a, &b, &mut out), Ok(1));
/// assert_eq!(out, [b[0], 0, 9]);
/// # Ok::<(), noripliers::Error>(())
/// ```
pub fn common_part(a: &[u64], b: &[u64], out: &mut [u64]) -> Result<usize, Error> {
    count(|count| {
        // SAFETY: as said above.
        unsafe {
            ffi::nori_common_part(
                a.as_ptr(),
                a.len(),
                b.as_ptr(),
                b.len(),
                out.as_mut_ptr(),
                out.len(),
                count,
            )
        }
    })
}

/// The settled list of what is in the first of two settled lists and not in the second, in as many
/// places as it has entries.
///
/// # Examples
/// ```
/// use noripliers::{Error, Tile, lent};
///
/// let (a, b) = ([Tile::from_quadkey("0")?.entry()], [Tile::from_quadkey("01")?.entry()]);
/// assert_eq!(lent::difference(&a, &b, &mut [0; 2]), Err(Error::Memory));
/// assert_eq!(lent::difference(&a, &b, &mut [0; 3]), Ok(3));
/// # Ok::<(), Error>(())
/// ```
pub fn difference(a: &[u64], b: &[u64], out: &mut [u64]) -> Result<usize, Error> {
    count(|count| {
        // SAFETY: as said above.
        unsafe {
            ffi::nori_difference(
                a.as_ptr(),
                a.len(),
                b.as_ptr(),
                b.len(),
                out.as_mut_ptr(),
                out.len(),
                count,
            )
        }
    })
}

/// Whether a line is a form, and if not, why: see [`form::check`](crate::form::check).
///
/// # Examples
/// ```
/// assert_eq!(noripliers::lent::form_check(b"(plus (tiles 0) (tiles))"), Ok(()));
/// ```
pub fn form_check(line: &[u8]) -> Result<(), Error> {
    // SAFETY: as said above.
    accepted(unsafe { ffi::nori_form_check(line.as_ptr(), line.len()) })
}

/// The settled list of a form line, in as many places as it has entries: see
/// [`form::area`](crate::form::area).
///
/// # Examples
/// ```
/// use noripliers::{Tile, lent};
///
/// let mut out = [9; 2];
/// assert_eq!(lent::form_area(b"(tiles 00 01 02 03)", &mut out), Ok(1));
/// assert_eq!(out, [Tile::from_quadkey("0")?.entry(), 9]);
/// # Ok::<(), noripliers::Error>(())
/// ```
pub fn form_area(line: &[u8], out: &mut [u64]) -> Result<usize, Error> {
    // SAFETY: as said above.
    count(|count| unsafe {
        ffi::nori_form_area(
            line.as_ptr(),
            line.len(),
            out.as_mut_ptr(),
            out.len(),
            count,
        )
    })
}

/// What is printed for a form line, without a newline: see [`form::answer`](crate::form::answer).
///
/// # Examples
/// ```
/// let mut out = *b"......";
/// assert_eq!(noripliers::lent::form_answer(b"(tiles 0)", &mut out), Ok(5));
/// assert_eq!(&out, b"(1 0).");
/// ```
pub fn form_answer(line: &[u8], out: &mut [u8]) -> Result<usize, Error> {
    // SAFETY: as said above.
    count(|count| unsafe {
        ffi::nori_form_answer(
            line.as_ptr(),
            line.len(),
            out.as_mut_ptr(),
            out.len(),
            count,
        )
    })
}

/// How far a chunk was taken in.
///
/// # Examples
/// ```
/// use noripliers::lent::{self, Fed};
///
/// let fed = lent::form_feed(b"(tiles 0)\n(til", &mut [0; 4097], 0, &mut [0; 100]);
/// assert_eq!(fed, Fed { next: 14, kept: 4, filled: 6 });
/// ```
#[derive(Clone, Copy, Debug, PartialEq, Eq)]
pub struct Fed {
    /// So many bytes of the chunk: all of it, unless memory ran out before a newline, which is then
    /// the next byte.
    pub next: usize,
    /// So many bytes of the line that has not ended.
    pub kept: usize,
    /// So many bytes of answers.
    pub filled: usize,
}

/// Takes in a chunk behind the first `len` bytes of a line, and writes the answers of the lines
/// that end in it, each with a newline, as far as there is room. Never refused. What is left of the
/// chunk is for the next call.
///
/// # Examples
/// ```
/// use noripliers::constants::KEPT;
/// use noripliers::lent;
///
/// let mut line = [0; KEPT];
/// let mut out = [0; 100];
/// let fed = lent::form_feed(b"(tiles 0)\n(tiles ", &mut line, 0, &mut out);
/// assert_eq!(&out[..fed.filled], b"(1 0)\n");
/// let fed = lent::form_feed(b"1)\n", &mut line, fed.kept, &mut out);
/// assert_eq!(&out[..fed.filled], b"(1 1)\n");
/// ```
pub fn form_feed(chunk: &[u8], line: &mut [u8; KEPT], len: usize, out: &mut [u8]) -> Fed {
    let (next, kept, filled): (u64, u64, u64) = never_refused(value(|(next, kept, filled)| {
        let (bytes, places) = (chunk.as_ptr(), out.as_mut_ptr());
        // SAFETY: as said above.
        unsafe {
            ffi::nori_form_feed(
                bytes,
                chunk.len(),
                line,
                len,
                places,
                out.len(),
                next,
                kept,
                filled,
            )
        }
    }));
    Fed {
        next: next as usize,
        kept: kept as usize,
        filled: filled as usize,
    }
}

/// The answer of a last line that has no newline, of which `len` bytes are kept; nothing where
/// `len` is 0.
///
/// # Examples
/// ```
/// use noripliers::constants::KEPT;
/// use noripliers::lent;
///
/// let mut line = [0; KEPT];
/// let mut out = [0; 100];
/// let fed = lent::form_feed(b"(tiles 0)", &mut line, 0, &mut out);
/// assert_eq!(lent::form_finish(&line, fed.kept, &mut out), Ok(6));
/// assert_eq!(&out[..6], b"(1 0)\n");
/// ```
pub fn form_finish(line: &[u8; KEPT], len: usize, out: &mut [u8]) -> Result<usize, Error> {
    // SAFETY: as said above.
    count(|count| unsafe { ffi::nori_form_finish(line, len, out.as_mut_ptr(), out.len(), count) })
}
