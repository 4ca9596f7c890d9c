//! The tile and its steps.

use std::cmp::Ordering;
use std::fmt;

use crate::answer::{accepted, never_refused, value};
use crate::{Error, Parents, TileZBox, ffi, fns, quadkey};

/// A tile of the map: column, row and zoom.
///
/// Every `Tile` names a tile, so that a call on one is refused only where its answer would leave
/// the map. x grows east and y south; at zoom z both are below 2^z. Tiles are ordered by z, then x,
/// then y, which is the order of every list that the library gives.
///
/// # Examples
/// ```
/// use noripliers::Tile;
///
/// let tile = Tile::new(3, 5, 3)?;
/// assert_eq!(tile.quadkey(), "213");
/// assert_eq!(tile.to_string(), "x3y5z3");
/// assert_eq!(Tile::try_from((3, 5, 3)), Ok(tile));
/// assert_eq!(<(u32, u32, u8)>::from(tile), (3, 5, 3));
/// assert!(tile < Tile::new(4, 0, 3)?);
/// # Ok::<(), noripliers::Error>(())
/// ```
#[derive(Clone, Copy, Debug, PartialEq, Eq, Hash)]
pub struct Tile {
    x: u32,
    y: u32,
    z: u8,
}

/// Whether numbers name a tile, and if not, why.
///
/// # Examples
/// ```
/// use noripliers::{Error, tile};
///
/// assert_eq!(tile::check(7, 7, 3), Ok(()));
/// assert_eq!(tile::check(8, 7, 3), Err(Error::OffMap));
/// assert_eq!(tile::check(8, 7, 31), Err(Error::Zoom));
/// ```
pub fn check(x: u32, y: u32, z: u8) -> Result<(), Error> {
    accepted(ffi::nori_check(x, y, z))
}

/// The tile that a call gives through its last three pointers.
pub(crate) fn given(call: impl FnOnce(&mut u32, &mut u32, &mut u8) -> u8) -> Result<Tile, Error> {
    let (x, y, z) = value(|(x, y, z)| call(x, y, z))?;
    Ok(Tile { x, y, z })
}

type Step = extern "C" fn(u32, u32, u8, &mut u32, &mut u32, &mut u8) -> u8;

impl Tile {
    /// The tile of column x and row y at zoom z. Refused by [`Error::Zoom`] or [`Error::OffMap`].
    ///
    /// # Examples
    /// ```
    /// use noripliers::{Error, Tile};
    ///
    /// assert_eq!(Tile::new(3, 5, 3)?.x(), 3);
    /// assert_eq!(Tile::new(3, 8, 3), Err(Error::OffMap));
    /// # Ok::<(), Error>(())
    /// ```
    pub fn new(x: u32, y: u32, z: u8) -> Result<Self, Error> {
        given(|tx, ty, tz| ffi::nori_try_new(x, y, z, tx, ty, tz))
    }

    /// The same as [`Tile::new`].
    ///
    /// # Examples
    /// ```
    /// use noripliers::Tile;
    ///
    /// assert_eq!(Tile::try_new(3, 5, 3), Tile::new(3, 5, 3));
    /// ```
    pub fn try_new(x: u32, y: u32, z: u8) -> Result<Self, Error> {
        Self::new(x, y, z)
    }

    /// The tile, or `None` where the numbers name none.
    ///
    /// # Examples
    /// ```
    /// use noripliers::Tile;
    ///
    /// assert!(Tile::new_checked(3, 5, 3).is_some());
    /// assert!(Tile::new_checked(3, 8, 3).is_none());
    /// ```
    #[must_use]
    pub fn new_checked(x: u32, y: u32, z: u8) -> Option<Self> {
        Self::new(x, y, z).ok()
    }

    /// The tile of the whole map.
    ///
    /// # Examples
    /// ```
    /// use noripliers::Tile;
    ///
    /// assert_eq!(Tile::root(), Tile::new(0, 0, 0)?);
    /// # Ok::<(), noripliers::Error>(())
    /// ```
    #[must_use]
    pub fn root() -> Self {
        never_refused(Self::new(0, 0, 0))
    }

    /// The tile of a quadkey. Refused by [`Error::KeyLength`] or [`Error::KeyByte`].
    ///
    /// # Examples
    /// ```
    /// use noripliers::{Error, Tile};
    ///
    /// assert_eq!(Tile::from_quadkey("213"), Tile::new(3, 5, 3));
    /// assert_eq!(Tile::from_quadkey(""), Ok(Tile::root()));
    /// assert_eq!(Tile::from_quadkey("1234"), Err(Error::KeyByte));
    /// ```
    pub fn from_quadkey(quadkey: impl AsRef<[u8]>) -> Result<Self, Error> {
        quadkey::quadkey2tile(quadkey)
    }

    /// The same as [`Tile::from_quadkey`].
    ///
    /// # Examples
    /// ```
    /// use noripliers::Tile;
    ///
    /// assert_eq!(Tile::from_qk("213"), Tile::from_quadkey("213"));
    /// ```
    pub fn from_qk(qk: impl AsRef<[u8]>) -> Result<Self, Error> {
        Self::from_quadkey(qk)
    }

    /// The tile of a number that counts row by row, zoom by zoom. Refused by [`Error::NoTile`].
    ///
    /// # Examples
    /// ```
    /// use noripliers::{Error, Tile};
    ///
    /// assert_eq!(Tile::from_row_major_id(64), Tile::new(3, 5, 3));
    /// assert_eq!(Tile::from_row_major_id(u64::MAX), Err(Error::NoTile));
    /// ```
    pub fn from_row_major_id(id: u64) -> Result<Self, Error> {
        given(|x, y, z| ffi::nori_rmid2xyz(id, x, y, z))
    }

    /// The same as [`Tile::from_row_major_id`].
    ///
    /// # Examples
    /// ```
    /// use noripliers::Tile;
    ///
    /// assert_eq!(Tile::from_rmid(0), Ok(Tile::root()));
    /// ```
    pub fn from_rmid(id: u64) -> Result<Self, Error> {
        Self::from_row_major_id(id)
    }

    /// The tile of a list entry. Refused by [`Error::NoTile`].
    ///
    /// # Examples
    /// ```
    /// use noripliers::{Tile, lent};
    ///
    /// let mut out = [0; 3];
    /// lent::siblings(3, 5, 3, &mut out)?;
    /// assert_eq!(Tile::from_entry(out[0])?, Tile::new(2, 5, 3)?);
    /// # Ok::<(), noripliers::Error>(())
    /// ```
    pub fn from_entry(entry: u64) -> Result<Self, Error> {
        given(|x, y, z| ffi::nori_entry_tile(entry, x, y, z))
    }

    /// The number that stands for the tile in the lists of [`lent`](crate::lent): that of
    /// [`Tile::rmid`]. Up to version 0.3.0 it was that of [`to_id`](crate::to_id), so keep tiles or
    /// keys in a file, and not entries.
    ///
    /// # Examples
    /// ```
    /// use noripliers::{Tile, lent};
    ///
    /// let tiles = Tile::root().children(None)?;
    /// let list: Vec<u64> = tiles.iter().map(Tile::entry).collect();
    /// let mut out = [0; 4];
    /// assert_eq!(lent::simplify(&list, 0, &mut out)?, 1);
    /// assert_eq!(out[0], Tile::root().entry());
    /// assert_eq!(tiles[3].entry(), tiles[3].rmid());
    /// # Ok::<(), noripliers::Error>(())
    /// ```
    #[must_use]
    pub fn entry(&self) -> u64 {
        never_refused(value(|entry| {
            ffi::nori_entry(self.x, self.y, self.z, entry)
        }))
    }

    /// The column.
    ///
    /// # Examples
    /// ```
    /// assert_eq!(noripliers::Tile::new(3, 5, 4)?.x(), 3);
    /// # Ok::<(), noripliers::Error>(())
    /// ```
    #[must_use]
    pub const fn x(&self) -> u32 {
        self.x
    }

    /// The row, counted from the north.
    ///
    /// # Examples
    /// ```
    /// assert_eq!(noripliers::Tile::new(3, 5, 4)?.y(), 5);
    /// # Ok::<(), noripliers::Error>(())
    /// ```
    #[must_use]
    pub const fn y(&self) -> u32 {
        self.y
    }

    /// The zoom.
    ///
    /// # Examples
    /// ```
    /// assert_eq!(noripliers::Tile::new(3, 5, 4)?.z(), 4);
    /// # Ok::<(), noripliers::Error>(())
    /// ```
    #[must_use]
    pub const fn z(&self) -> u8 {
        self.z
    }

    /// The same as [`Tile::z`].
    ///
    /// # Examples
    /// ```
    /// assert_eq!(noripliers::Tile::new(3, 5, 4)?.zoom(), 4);
    /// # Ok::<(), noripliers::Error>(())
    /// ```
    #[must_use]
    pub const fn zoom(&self) -> u8 {
        self.z
    }

    /// The tile with its row counted from the other side.
    ///
    /// # Examples
    /// ```
    /// use noripliers::Tile;
    ///
    /// assert_eq!(Tile::new(3, 5, 3)?.flip(), Tile::new(3, 2, 3)?);
    /// # Ok::<(), noripliers::Error>(())
    /// ```
    #[must_use]
    pub fn flip(&self) -> Self {
        never_refused(self.step(ffi::nori_flip))
    }

    /// The row, counted from the south.
    ///
    /// # Examples
    /// ```
    /// assert_eq!(noripliers::Tile::new(3, 5, 3)?.flipy(), 2);
    /// # Ok::<(), noripliers::Error>(())
    /// ```
    #[must_use]
    pub fn flipy(&self) -> u32 {
        never_refused(fns::flipy(self.y, self.z))
    }

    /// The same as [`Tile::flipy`].
    ///
    /// # Examples
    /// ```
    /// assert_eq!(noripliers::Tile::new(3, 5, 3)?.yflip(), 2);
    /// # Ok::<(), noripliers::Error>(())
    /// ```
    #[must_use]
    pub fn yflip(&self) -> u32 {
        self.flipy()
    }

    /// The same as [`Tile::flipy`].
    ///
    /// # Examples
    /// ```
    /// assert_eq!(noripliers::Tile::new(3, 5, 3)?.yup(), 2);
    /// # Ok::<(), noripliers::Error>(())
    /// ```
    #[must_use]
    pub fn yup(&self) -> u32 {
        self.flipy()
    }

    /// The quadkey, a digit for each zoom.
    ///
    /// # Examples
    /// ```
    /// use noripliers::Tile;
    ///
    /// assert_eq!(Tile::new(3, 5, 3)?.quadkey(), "213");
    /// assert_eq!(Tile::root().quadkey(), "");
    /// # Ok::<(), noripliers::Error>(())
    /// ```
    #[must_use]
    pub fn quadkey(&self) -> String {
        never_refused(quadkey::xyz2quadkey(self.x, self.y, self.z))
    }

    /// The same as [`Tile::quadkey`].
    ///
    /// # Examples
    /// ```
    /// assert_eq!(noripliers::Tile::new(3, 5, 3)?.qk(), "213");
    /// # Ok::<(), noripliers::Error>(())
    /// ```
    #[must_use]
    pub fn qk(&self) -> String {
        self.quadkey()
    }

    /// The number that counts row by row, zoom by zoom.
    ///
    /// # Examples
    /// ```
    /// assert_eq!(noripliers::Tile::new(3, 5, 3)?.row_major_id(), 64);
    /// # Ok::<(), noripliers::Error>(())
    /// ```
    #[must_use]
    pub fn row_major_id(&self) -> u64 {
        never_refused(fns::xyz2rmid(self.x, self.y, self.z))
    }

    /// The same as [`Tile::row_major_id`].
    ///
    /// # Examples
    /// ```
    /// assert_eq!(noripliers::Tile::new(3, 5, 3)?.rmid(), 64);
    /// # Ok::<(), noripliers::Error>(())
    /// ```
    #[must_use]
    pub fn rmid(&self) -> u64 {
        self.row_major_id()
    }

    /// The ancestor 1 + n zooms up; `None` is n = 0, the parent. Refused by [`Error::NoRelative`]
    /// past the root.
    ///
    /// # Examples
    /// ```
    /// use noripliers::{Error, Tile};
    ///
    /// let tile = Tile::new(3, 5, 3)?;
    /// assert_eq!(tile.parent(None), Tile::new(1, 2, 2));
    /// assert_eq!(tile.parent(Some(2)), Ok(Tile::root()));
    /// assert_eq!(tile.parent(Some(3)), Err(Error::NoRelative));
    /// # Ok::<(), Error>(())
    /// ```
    pub fn parent(&self, n: Option<u8>) -> Result<Self, Error> {
        fns::parent(self.x, self.y, self.z, n)
    }

    /// The ancestor of [`Tile::parent`], and the quadkey digits of the steps to it, the deepest
    /// last: its quadkey followed by them is the tile's.
    ///
    /// # Examples
    /// ```
    /// use noripliers::{Error, Tile};
    ///
    /// let tile = Tile::new(3, 5, 3)?;
    /// let (parent, digits) = tile.parent_with_digits(None)?;
    /// assert_eq!((parent, digits.as_str()), (Tile::new(1, 2, 2)?, "3"));
    /// assert_eq!(parent.quadkey() + &digits, tile.quadkey());
    /// assert_eq!(tile.parent_with_digits(Some(2))?, (Tile::root(), "213".to_owned()));
    /// assert_eq!(tile.parent_with_digits(Some(3)), Err(Error::NoRelative));
    /// # Ok::<(), Error>(())
    /// ```
    pub fn parent_with_digits(&self, n: Option<u8>) -> Result<(Self, String), Error> {
        fns::parent_with_digits(self.x, self.y, self.z, n)
    }

    /// The ancestors, from the parent to the root.
    ///
    /// # Examples
    /// ```
    /// use noripliers::Tile;
    ///
    /// let keys: Vec<String> = Tile::from_quadkey("213")?.iter_parents().map(|tile| tile.quadkey()).collect();
    /// assert_eq!(keys, ["21", "2", ""]);
    /// # Ok::<(), noripliers::Error>(())
    /// ```
    #[must_use]
    pub fn iter_parents(&self) -> Parents {
        never_refused(crate::parent::iter_parents(self.x, self.y, self.z))
    }

    /// The four children by quadkey digit: 0, 1, 2, 3. Refused by [`Error::Zoom`] at the deepest
    /// zoom.
    ///
    /// # Examples
    /// ```
    /// use noripliers::Tile;
    ///
    /// let keys = Tile::from_quadkey("21")?.children1()?.map(|tile| tile.quadkey());
    /// assert_eq!(keys, ["210", "211", "212", "213"]);
    /// # Ok::<(), noripliers::Error>(())
    /// ```
    pub fn children1(&self) -> Result<[Self; 4], Error> {
        fns::children1_zorder(self.x, self.y, self.z)
    }

    /// The descendants at a zoom, each family clockwise; `None` is the next zoom. See
    /// [`children`](fn@crate::children).
    ///
    /// # Examples
    /// ```
    /// use noripliers::Tile;
    ///
    /// let keys: Vec<String> = Tile::root().children(None)?.iter().map(Tile::quadkey).collect();
    /// assert_eq!(keys, ["0", "1", "3", "2"]);
    /// # Ok::<(), noripliers::Error>(())
    /// ```
    pub fn children(&self, zoom: Option<u8>) -> Result<Vec<Self>, Error> {
        fns::children(self.x, self.y, self.z, zoom)
    }

    /// The descendants at a zoom, each family by quadkey digit; `None` is the next zoom. See
    /// [`children_zorder`](fn@crate::children_zorder).
    ///
    /// # Examples
    /// ```
    /// use noripliers::Tile;
    ///
    /// let keys: Vec<String> = Tile::root().children_zorder(None)?.iter().map(Tile::quadkey).collect();
    /// assert_eq!(keys, ["0", "1", "2", "3"]);
    /// # Ok::<(), noripliers::Error>(())
    /// ```
    pub fn children_zorder(&self, zoom: Option<u8>) -> Result<Vec<Self>, Error> {
        fns::children_zorder(self.x, self.y, self.z, zoom)
    }

    /// The three other children of the parent: beside, above or below, across. Refused by
    /// [`Error::NoRelative`] at the root.
    ///
    /// # Examples
    /// ```
    /// use noripliers::Tile;
    ///
    /// let keys: Vec<String> = Tile::from_quadkey("213")?.siblings()?.iter().map(Tile::quadkey).collect();
    /// assert_eq!(keys, ["212", "211", "210"]);
    /// # Ok::<(), noripliers::Error>(())
    /// ```
    pub fn siblings(&self) -> Result<Vec<Self>, Error> {
        fns::siblings(self.x, self.y, self.z)
    }

    /// The tiles around the tile, up to eight; with `wrapx` also those across the map's left and
    /// right edge.
    ///
    /// # Examples
    /// ```
    /// use noripliers::Tile;
    ///
    /// let corner = Tile::new(3, 0, 2)?;
    /// assert_eq!(corner.neighbors(false).len(), 3);
    /// assert_eq!(corner.neighbors(true).len(), 5);
    /// # Ok::<(), noripliers::Error>(())
    /// ```
    #[must_use]
    pub fn neighbors(&self, wrapx: bool) -> Vec<Self> {
        let around = if wrapx {
            fns::neighbors_wrap_x
        } else {
            fns::neighbors
        };
        never_refused(around(self.x, self.y, self.z))
    }

    /// The box of this one tile.
    ///
    /// # Examples
    /// ```
    /// assert_eq!(noripliers::Tile::new(3, 5, 3)?.zbox().length(), 1);
    /// # Ok::<(), noripliers::Error>(())
    /// ```
    #[must_use]
    pub fn zbox(&self) -> TileZBox {
        TileZBox::from_tile(self)
    }

    /// The box of the descendants so many zooms below; `None` is 1. Refused by [`Error::Zoom`]
    /// below the deepest zoom.
    ///
    /// # Examples
    /// ```
    /// use noripliers::Tile;
    ///
    /// assert_eq!(Tile::new(3, 5, 3)?.children_zbox(None)?.length(), 4);
    /// assert_eq!(Tile::root().children_zbox(Some(16))?.length(), 4_294_967_296);
    /// # Ok::<(), noripliers::Error>(())
    /// ```
    pub fn children_zbox(&self, depth: Option<u8>) -> Result<TileZBox, Error> {
        self.zbox().zoom_depth(depth.unwrap_or(1))
    }

    /// The tile with x one greater, which is how utiles steps up. This and the seven other steps
    /// are refused by [`Error::OffMap`] at the map's edges.
    ///
    /// # Examples
    /// ```
    /// use noripliers::Tile;
    ///
    /// assert_eq!(Tile::new(3, 5, 3)?.up()?, Tile::new(4, 5, 3)?);
    /// # Ok::<(), noripliers::Error>(())
    /// ```
    pub fn up(&self) -> Result<Self, Error> {
        self.step(ffi::nori_up)
    }

    /// The tile with x one less.
    ///
    /// # Examples
    /// ```
    /// use noripliers::{Error, Tile};
    ///
    /// assert_eq!(Tile::new(3, 5, 3)?.down()?, Tile::new(2, 5, 3)?);
    /// assert_eq!(Tile::new(0, 5, 3)?.down(), Err(Error::OffMap));
    /// # Ok::<(), Error>(())
    /// ```
    pub fn down(&self) -> Result<Self, Error> {
        self.step(ffi::nori_down)
    }

    /// The tile with y one less.
    ///
    /// # Examples
    /// ```
    /// use noripliers::Tile;
    ///
    /// assert_eq!(Tile::new(3, 5, 3)?.left()?, Tile::new(3, 4, 3)?);
    /// # Ok::<(), noripliers::Error>(())
    /// ```
    pub fn left(&self) -> Result<Self, Error> {
        self.step(ffi::nori_left)
    }

    /// The tile with y one greater.
    ///
    /// # Examples
    /// ```
    /// use noripliers::Tile;
    ///
    /// assert_eq!(Tile::new(3, 5, 3)?.right()?, Tile::new(3, 6, 3)?);
    /// # Ok::<(), noripliers::Error>(())
    /// ```
    pub fn right(&self) -> Result<Self, Error> {
        self.step(ffi::nori_right)
    }

    /// The tile with x one greater and y one less.
    ///
    /// # Examples
    /// ```
    /// use noripliers::Tile;
    ///
    /// assert_eq!(Tile::new(3, 5, 3)?.up_left()?, Tile::new(4, 4, 3)?);
    /// # Ok::<(), noripliers::Error>(())
    /// ```
    pub fn up_left(&self) -> Result<Self, Error> {
        self.step(ffi::nori_up_left)
    }

    /// The tile with x and y one greater.
    ///
    /// # Examples
    /// ```
    /// use noripliers::Tile;
    ///
    /// assert_eq!(Tile::new(3, 5, 3)?.up_right()?, Tile::new(4, 6, 3)?);
    /// # Ok::<(), noripliers::Error>(())
    /// ```
    pub fn up_right(&self) -> Result<Self, Error> {
        self.step(ffi::nori_up_right)
    }

    /// The tile with x and y one less.
    ///
    /// # Examples
    /// ```
    /// use noripliers::Tile;
    ///
    /// assert_eq!(Tile::new(3, 5, 3)?.down_left()?, Tile::new(2, 4, 3)?);
    /// # Ok::<(), noripliers::Error>(())
    /// ```
    pub fn down_left(&self) -> Result<Self, Error> {
        self.step(ffi::nori_down_left)
    }

    /// The tile with x one less and y one greater.
    ///
    /// # Examples
    /// ```
    /// use noripliers::Tile;
    ///
    /// assert_eq!(Tile::new(3, 5, 3)?.down_right()?, Tile::new(2, 6, 3)?);
    /// # Ok::<(), noripliers::Error>(())
    /// ```
    pub fn down_right(&self) -> Result<Self, Error> {
        self.step(ffi::nori_down_right)
    }

    fn step(&self, call: Step) -> Result<Self, Error> {
        given(|x, y, z| call(self.x, self.y, self.z, x, y, z))
    }
}

impl Ord for Tile {
    fn cmp(&self, other: &Self) -> Ordering {
        let order = never_refused(value(|order| {
            ffi::nori_cmp(self.x, self.y, self.z, other.x, other.y, other.z, order)
        }));
        order.cmp(&1u8)
    }
}

impl PartialOrd for Tile {
    fn partial_cmp(&self, other: &Self) -> Option<Ordering> {
        Some(self.cmp(other))
    }
}

impl fmt::Display for Tile {
    fn fmt(&self, f: &mut fmt::Formatter<'_>) -> fmt::Result {
        write!(f, "x{}y{}z{}", self.x, self.y, self.z)
    }
}

impl TryFrom<(u32, u32, u8)> for Tile {
    type Error = Error;

    fn try_from((x, y, z): (u32, u32, u8)) -> Result<Self, Error> {
        Self::new(x, y, z)
    }
}

impl From<Tile> for (u32, u32, u8) {
    fn from(tile: Tile) -> Self {
        (tile.x, tile.y, tile.z)
    }
}
