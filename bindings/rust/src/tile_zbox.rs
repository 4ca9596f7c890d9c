//! Boxes of the tiles of one zoom.

use std::iter::FusedIterator;

use crate::answer::{accepted, entries, lend, never_refused, told, value};
use crate::{Error, Tile, ffi, lent};

/// A box of the tiles of one zoom, from a least to a greatest column and row, both ends included.
///
/// Every `TileZBox` is a box on the map. Iterating gives all its tiles, row by row.
///
/// # Examples
/// ```
/// use noripliers::TileZBox;
///
/// let zbox = TileZBox::new(2, 3, 4, 5, 3)?;
/// let keys: Vec<String> = zbox.into_iter().map(|tile| tile.quadkey()).collect();
/// assert_eq!(keys, ["210", "211", "212", "213"]);
/// # Ok::<(), noripliers::Error>(())
/// ```
#[derive(Clone, Copy, Debug, PartialEq, Eq, Hash)]
pub struct TileZBox {
    zoom: u8,
    minx: u32,
    maxx: u32,
    miny: u32,
    maxy: u32,
}

/// Whether numbers make a box, and if not, why: [`Error::Zoom`] or [`Error::NoBox`].
///
/// # Examples
/// ```
/// use noripliers::{Error, tile_zbox};
///
/// assert_eq!(tile_zbox::check(2, 3, 4, 5, 3), Ok(()));
/// assert_eq!(tile_zbox::check(3, 2, 4, 5, 3), Err(Error::NoBox));
/// ```
pub fn check(minx: u32, maxx: u32, miny: u32, maxy: u32, zoom: u8) -> Result<(), Error> {
    accepted(ffi::nori_zbox_check(zoom, minx, maxx, miny, maxy))
}

/// The box that a call gives through its last five pointers.
pub(crate) fn given(
    call: impl FnOnce(&mut u8, &mut u32, &mut u32, &mut u32, &mut u32) -> u8,
) -> Result<TileZBox, Error> {
    let (zoom, minx, maxx, miny, maxy) =
        value(|(zoom, minx, maxx, miny, maxy)| call(zoom, minx, maxx, miny, maxy))?;
    Ok(TileZBox {
        zoom,
        minx,
        maxx,
        miny,
        maxy,
    })
}

type ToNumber<T> = extern "C" fn(u8, u32, u32, u32, u32, &mut T) -> u8;
type ToPair = extern "C" fn(u8, u32, u32, u32, u32, &mut u32, &mut u32) -> u8;
type ToBox =
    extern "C" fn(u8, u32, u32, u32, u32, &mut u8, &mut u32, &mut u32, &mut u32, &mut u32) -> u8;

impl TileZBox {
    /// The box of these columns and rows. Refused by [`Error::Zoom`] or [`Error::NoBox`].
    ///
    /// # Examples
    /// ```
    /// use noripliers::{Error, TileZBox};
    ///
    /// assert_eq!(TileZBox::new(2, 3, 4, 5, 3)?.length(), 4);
    /// assert_eq!(TileZBox::new(3, 2, 4, 5, 3), Err(Error::NoBox));
    /// # Ok::<(), Error>(())
    /// ```
    pub fn new(minx: u32, maxx: u32, miny: u32, maxy: u32, zoom: u8) -> Result<Self, Error> {
        given(|z, left, right, top, bottom| {
            ffi::nori_zbox_new(minx, maxx, miny, maxy, zoom, z, left, right, top, bottom)
        })
    }

    /// The box of one tile.
    ///
    /// # Examples
    /// ```
    /// use noripliers::{Tile, TileZBox};
    ///
    /// assert_eq!(TileZBox::from_tile(&Tile::new(3, 5, 3)?), TileZBox::new(3, 3, 5, 5, 3)?);
    /// # Ok::<(), noripliers::Error>(())
    /// ```
    #[must_use]
    pub fn from_tile(tile: &Tile) -> Self {
        never_refused(given(|z, left, right, top, bottom| {
            ffi::nori_zbox_from_tile(tile.x(), tile.y(), tile.z(), z, left, right, top, bottom)
        }))
    }

    /// The least box of tiles of one zoom. Refused by [`Error::TooMany`], [`Error::EmptyList`] or
    /// [`Error::MixedZooms`].
    ///
    /// # Examples
    /// ```
    /// use noripliers::{Tile, TileZBox};
    ///
    /// let tiles = [Tile::new(3, 5, 3)?, Tile::new(1, 6, 3)?];
    /// assert_eq!(TileZBox::from_tiles(&tiles), TileZBox::new(1, 3, 5, 6, 3));
    /// # Ok::<(), noripliers::Error>(())
    /// ```
    pub fn from_tiles(tiles: &[Tile]) -> Result<Self, Error> {
        lent::from_tiles(&entries(tiles))
    }

    /// The zoom.
    ///
    /// # Examples
    /// ```
    /// assert_eq!(noripliers::TileZBox::new(1, 2, 3, 4, 5)?.z(), 5);
    /// # Ok::<(), noripliers::Error>(())
    /// ```
    #[must_use]
    pub const fn z(&self) -> u8 {
        self.zoom
    }

    /// The same as [`TileZBox::z`].
    ///
    /// # Examples
    /// ```
    /// assert_eq!(noripliers::TileZBox::new(1, 2, 3, 4, 5)?.zoom(), 5);
    /// # Ok::<(), noripliers::Error>(())
    /// ```
    #[must_use]
    pub const fn zoom(&self) -> u8 {
        self.zoom
    }

    /// The least column.
    ///
    /// # Examples
    /// ```
    /// assert_eq!(noripliers::TileZBox::new(1, 2, 3, 4, 5)?.minx(), 1);
    /// # Ok::<(), noripliers::Error>(())
    /// ```
    #[must_use]
    pub const fn minx(&self) -> u32 {
        self.minx
    }

    /// The greatest column.
    ///
    /// # Examples
    /// ```
    /// assert_eq!(noripliers::TileZBox::new(1, 2, 3, 4, 5)?.maxx(), 2);
    /// # Ok::<(), noripliers::Error>(())
    /// ```
    #[must_use]
    pub const fn maxx(&self) -> u32 {
        self.maxx
    }

    /// The least row.
    ///
    /// # Examples
    /// ```
    /// assert_eq!(noripliers::TileZBox::new(1, 2, 3, 4, 5)?.miny(), 3);
    /// # Ok::<(), noripliers::Error>(())
    /// ```
    #[must_use]
    pub const fn miny(&self) -> u32 {
        self.miny
    }

    /// The greatest row.
    ///
    /// # Examples
    /// ```
    /// assert_eq!(noripliers::TileZBox::new(1, 2, 3, 4, 5)?.maxy(), 4);
    /// # Ok::<(), noripliers::Error>(())
    /// ```
    #[must_use]
    pub const fn maxy(&self) -> u32 {
        self.maxy
    }

    /// The greatest column less the least: one less than there are columns.
    ///
    /// # Examples
    /// ```
    /// assert_eq!(noripliers::TileZBox::new(1, 3, 3, 4, 5)?.dx(), 2);
    /// # Ok::<(), noripliers::Error>(())
    /// ```
    #[must_use]
    pub fn dx(&self) -> u32 {
        self.number(ffi::nori_zbox_dx)
    }

    /// The greatest row less the least: one less than there are rows.
    ///
    /// # Examples
    /// ```
    /// assert_eq!(noripliers::TileZBox::new(1, 3, 3, 4, 5)?.dy(), 1);
    /// # Ok::<(), noripliers::Error>(())
    /// ```
    #[must_use]
    pub fn dy(&self) -> u32 {
        self.number(ffi::nori_zbox_dy)
    }

    /// The same as [`TileZBox::dx`], as in utiles.
    ///
    /// # Examples
    /// ```
    /// assert_eq!(noripliers::TileZBox::new(1, 3, 3, 4, 5)?.width(), 2);
    /// # Ok::<(), noripliers::Error>(())
    /// ```
    #[must_use]
    pub fn width(&self) -> u32 {
        self.number(ffi::nori_zbox_width)
    }

    /// The same as [`TileZBox::dy`], as in utiles.
    ///
    /// # Examples
    /// ```
    /// assert_eq!(noripliers::TileZBox::new(1, 3, 3, 4, 5)?.height(), 1);
    /// # Ok::<(), noripliers::Error>(())
    /// ```
    #[must_use]
    pub fn height(&self) -> u32 {
        self.number(ffi::nori_zbox_height)
    }

    /// [`TileZBox::dx`] and [`TileZBox::dy`].
    ///
    /// # Examples
    /// ```
    /// assert_eq!(noripliers::TileZBox::new(1, 3, 3, 4, 5)?.dxdy(), (2, 1));
    /// # Ok::<(), noripliers::Error>(())
    /// ```
    #[must_use]
    pub fn dxdy(&self) -> (u32, u32) {
        self.pair(ffi::nori_zbox_dxdy)
    }

    /// How many columns there are, and how many rows.
    ///
    /// # Examples
    /// ```
    /// assert_eq!(noripliers::TileZBox::new(1, 3, 3, 4, 5)?.dimensions(), (3, 2));
    /// # Ok::<(), noripliers::Error>(())
    /// ```
    #[must_use]
    pub fn dimensions(&self) -> (u32, u32) {
        self.pair(ffi::nori_zbox_dimensions)
    }

    /// How many tiles there are, also where utiles has no room for the number.
    ///
    /// # Examples
    /// ```
    /// use noripliers::TileZBox;
    ///
    /// assert_eq!(TileZBox::new(0, 65_535, 0, 65_535, 16)?.length(), 4_294_967_296);
    /// # Ok::<(), noripliers::Error>(())
    /// ```
    #[must_use]
    pub fn length(&self) -> u64 {
        self.number(ffi::nori_zbox_length)
    }

    /// The same as [`TileZBox::length`].
    ///
    /// # Examples
    /// ```
    /// assert_eq!(noripliers::TileZBox::new(1, 3, 3, 4, 5)?.size(), 6);
    /// # Ok::<(), noripliers::Error>(())
    /// ```
    #[must_use]
    pub fn size(&self) -> u64 {
        self.number(ffi::nori_zbox_size)
    }

    /// Whether a tile is in the box. A tile of another zoom is not.
    ///
    /// # Examples
    /// ```
    /// use noripliers::{Tile, TileZBox};
    ///
    /// let zbox = TileZBox::new(1, 3, 3, 4, 5)?;
    /// assert!(zbox.contains_tile(&Tile::new(2, 4, 5)?));
    /// assert!(!zbox.contains_tile(&Tile::new(2, 4, 6)?));
    /// # Ok::<(), noripliers::Error>(())
    /// ```
    #[must_use]
    pub fn contains_tile(&self, tile: &Tile) -> bool {
        let (x, y, z) = (*tile).into();
        never_refused(told(|told| {
            ffi::nori_zbox_contains_tile(
                self.zoom, self.minx, self.maxx, self.miny, self.maxy, x, y, z, told,
            )
        }))
    }

    /// The box with its rows counted from the other side.
    ///
    /// # Examples
    /// ```
    /// use noripliers::TileZBox;
    ///
    /// assert_eq!(TileZBox::new(1, 3, 5, 6, 3)?.flipy(), TileZBox::new(1, 3, 1, 2, 3)?);
    /// # Ok::<(), noripliers::Error>(())
    /// ```
    #[must_use]
    pub fn flipy(&self) -> Self {
        never_refused(self.zbox(ffi::nori_zbox_flipy))
    }

    /// The box of all children. Refused by [`Error::Zoom`] at the deepest zoom.
    ///
    /// # Examples
    /// ```
    /// use noripliers::TileZBox;
    ///
    /// assert_eq!(TileZBox::new(1, 3, 5, 6, 3)?.zoom_in(), TileZBox::new(2, 7, 10, 13, 4));
    /// # Ok::<(), noripliers::Error>(())
    /// ```
    pub fn zoom_in(&self) -> Result<Self, Error> {
        self.zbox(ffi::nori_zbox_zoom_in)
    }

    /// The box of all descendants so many zooms below. Refused by [`Error::Zoom`] below the deepest
    /// zoom.
    ///
    /// # Examples
    /// ```
    /// use noripliers::TileZBox;
    ///
    /// let zbox = TileZBox::new(1, 3, 5, 6, 3)?;
    /// assert_eq!(zbox.zoom_depth(2), TileZBox::new(4, 15, 20, 27, 5));
    /// assert_eq!(zbox.zoom_depth(0), Ok(zbox));
    /// # Ok::<(), noripliers::Error>(())
    /// ```
    pub fn zoom_depth(&self, depth: u8) -> Result<Self, Error> {
        given(|z, left, right, top, bottom| {
            let Self {
                zoom,
                minx,
                maxx,
                miny,
                maxy,
            } = *self;
            ffi::nori_zbox_zoom_depth(
                zoom, minx, maxx, miny, maxy, depth, z, left, right, top, bottom,
            )
        })
    }

    fn number<T: Default>(&self, call: ToNumber<T>) -> T {
        never_refused(value(|number| {
            call(
                self.zoom, self.minx, self.maxx, self.miny, self.maxy, number,
            )
        }))
    }

    fn pair(&self, call: ToPair) -> (u32, u32) {
        never_refused(value(|(a, b)| {
            call(self.zoom, self.minx, self.maxx, self.miny, self.maxy, a, b)
        }))
    }

    fn zbox(&self, call: ToBox) -> Result<Self, Error> {
        given(|z, left, right, top, bottom| {
            call(
                self.zoom, self.minx, self.maxx, self.miny, self.maxy, z, left, right, top, bottom,
            )
        })
    }

    fn numbers(&self) -> [u32; 5] {
        [self.zoom.into(), self.minx, self.maxx, self.miny, self.maxy]
    }
}

/// The tiles of a box, row by row, each from the least column to the greatest.
///
/// # Examples
/// ```
/// use noripliers::TileZBox;
/// use noripliers::tile_zbox::TileZBoxIterator;
///
/// let mut tiles = TileZBoxIterator::from(TileZBox::new(1, 2, 3, 4, 5)?);
/// assert_eq!(tiles.size_hint(), (4, Some(4)));
/// let columns_and_rows: Vec<(u32, u32)> = tiles.map(|tile| (tile.x(), tile.y())).collect();
/// assert_eq!(columns_and_rows, [(1, 3), (2, 3), (1, 4), (2, 4)]);
/// # Ok::<(), noripliers::Error>(())
/// ```
#[derive(Clone, Debug)]
pub struct TileZBoxIterator {
    range: TileZBox,
    given: u64,
}

impl From<TileZBox> for TileZBoxIterator {
    fn from(range: TileZBox) -> Self {
        Self { range, given: 0 }
    }
}

impl Iterator for TileZBoxIterator {
    type Item = Tile;

    fn next(&mut self) -> Option<Tile> {
        let TileZBox {
            zoom,
            minx,
            maxx,
            miny,
            maxy,
        } = self.range;
        let (count, x, y, z, after): (u8, u32, u32, u8, u64) =
            never_refused(value(|(count, x, y, z, after)| {
                ffi::nori_zbox_next(
                    zoom, minx, maxx, miny, maxy, self.given, count, x, y, z, after,
                )
            }));
        self.given = after;
        (count == 1).then(|| never_refused(Tile::new(x, y, z)))
    }

    fn size_hint(&self) -> (usize, Option<usize>) {
        let TileZBox {
            zoom,
            minx,
            maxx,
            miny,
            maxy,
        } = self.range;
        // The hint of utiles counts the tiles that were given, too.
        let all: u64 = never_refused(value(|all| {
            ffi::nori_zbox_size_hint(zoom, minx, maxx, miny, maxy, self.given, all)
        }));
        let left = usize::try_from(all - self.given).ok();
        (left.unwrap_or(usize::MAX), left)
    }
}

impl FusedIterator for TileZBoxIterator {}

impl IntoIterator for TileZBox {
    type Item = Tile;
    type IntoIter = TileZBoxIterator;

    fn into_iter(self) -> TileZBoxIterator {
        TileZBoxIterator::from(self)
    }
}

/// Up to 8 boxes. What several of them have counts several times.
///
/// # Examples
/// ```
/// use noripliers::{Error, Tile, TileZBoxes};
///
/// let boxes = TileZBoxes::try_from(vec![Tile::root().zbox(), Tile::root().children_zbox(None)?])?;
/// assert_eq!(boxes.length(), 5);
/// assert_eq!(boxes.into_iter().count(), 5);
/// assert_eq!(TileZBoxes::try_from(vec![Tile::root().zbox(); 9]), Err(Error::TooMany));
/// # Ok::<(), Error>(())
/// ```
#[derive(Clone, Debug, PartialEq, Eq)]
pub struct TileZBoxes {
    ranges: Vec<TileZBox>,
}

impl TileZBoxes {
    /// One box. Refused as [`TileZBox::new`] is.
    ///
    /// # Examples
    /// ```
    /// assert_eq!(noripliers::TileZBoxes::new(1, 3, 3, 4, 5)?.length(), 6);
    /// # Ok::<(), noripliers::Error>(())
    /// ```
    pub fn new(minx: u32, maxx: u32, miny: u32, maxy: u32, zoom: u8) -> Result<Self, Error> {
        TileZBox::new(minx, maxx, miny, maxy, zoom).map(Self::from)
    }

    /// The boxes.
    ///
    /// # Examples
    /// ```
    /// use noripliers::{TileZBox, TileZBoxes};
    ///
    /// assert_eq!(TileZBoxes::new(1, 3, 3, 4, 5)?.ranges(), [TileZBox::new(1, 3, 3, 4, 5)?]);
    /// # Ok::<(), noripliers::Error>(())
    /// ```
    #[must_use]
    pub fn ranges(&self) -> &[TileZBox] {
        &self.ranges
    }

    /// How many tiles the boxes have together.
    ///
    /// # Examples
    /// ```
    /// use noripliers::{Tile, TileZBoxes};
    ///
    /// let boxes = TileZBoxes::try_from(vec![Tile::root().zbox(); 3])?;
    /// assert_eq!(boxes.length(), 3);
    /// # Ok::<(), noripliers::Error>(())
    /// ```
    #[must_use]
    pub fn length(&self) -> u64 {
        never_refused(lent::boxes_length(&self.numbers()))
    }

    /// The boxes with their rows counted from the other side.
    ///
    /// # Examples
    /// ```
    /// use noripliers::TileZBoxes;
    ///
    /// assert_eq!(TileZBoxes::new(1, 3, 5, 6, 3)?.flipy(), TileZBoxes::new(1, 3, 1, 2, 3)?);
    /// # Ok::<(), noripliers::Error>(())
    /// ```
    #[must_use]
    pub fn flipy(&self) -> Self {
        let numbers = self.numbers();
        let flipped = never_refused(lend(numbers.len(), |out| lent::boxes_flipy(&numbers, out)));
        let rows = flipped.chunks_exact(5).map(|row| (row[3], row[4]));
        let flip = |(zbox, (miny, maxy)): (&TileZBox, _)| TileZBox {
            miny,
            maxy,
            ..*zbox
        };
        Self {
            ranges: self.ranges.iter().zip(rows).map(flip).collect(),
        }
    }

    fn numbers(&self) -> Vec<u32> {
        self.ranges.iter().flat_map(TileZBox::numbers).collect()
    }
}

impl From<TileZBox> for TileZBoxes {
    fn from(range: TileZBox) -> Self {
        Self {
            ranges: vec![range],
        }
    }
}

impl TryFrom<Vec<TileZBox>> for TileZBoxes {
    type Error = Error;

    fn try_from(ranges: Vec<TileZBox>) -> Result<Self, Error> {
        let boxes = Self { ranges };
        lent::boxes_length(&boxes.numbers())?;
        Ok(boxes)
    }
}

/// The tiles of several boxes: all of the first, then all of the second, and so on, each row by row.
/// They are those of [`lent::boxes_next`], which looks for the box anew at each call.
///
/// # Examples
/// ```
/// use noripliers::{TileZBox, TileZBoxes, lent};
///
/// let boxes = [TileZBox::new(2, 3, 4, 4, 3)?, TileZBox::new(0, 0, 0, 1, 1)?];
/// let tiles = TileZBoxes::try_from(boxes.to_vec())?.into_iter();
/// let keys: Vec<String> = tiles.map(|tile| tile.quadkey()).collect();
/// assert_eq!(keys, ["210", "211", "0", "2"]);
/// let third = lent::boxes_next(&[3, 2, 3, 4, 4, 1, 0, 0, 0, 1], 2)?;
/// assert_eq!(third.0.map(|tile| tile.quadkey()), Some("0".to_string()));
/// # Ok::<(), noripliers::Error>(())
/// ```
impl IntoIterator for TileZBoxes {
    type Item = Tile;
    type IntoIter = std::iter::Flatten<std::vec::IntoIter<TileZBox>>;

    fn into_iter(self) -> Self::IntoIter {
        self.ranges.into_iter().flatten()
    }
}
