//! Areas of the map, which utiles does not have.

use crate::answer::{entries, lend, tiles};
use crate::{Error, Tile, lent};

/// A part of the map: the one settled list of tiles that covers it.
///
/// Settled means: in order, each tile once, no tile beside its own ancestor, no four siblings
/// together. No other list of the same ground is as short, and two areas are equal just when they
/// cover the same ground. No call on an area is refused by [`Error::NotSettled`]; one that has
/// grown over [`MAX_ENTRIES`](crate::constants::MAX_ENTRIES) tiles is refused by [`Error::TooMany`]
/// wherever it goes in.
///
/// # Examples
/// ```
/// use noripliers::Area;
///
/// let plan = Area::from_quadkeys(["00", "01", "02", "03", "012"])?;
/// assert_eq!(plan.quadkeys(), ["0"]);
/// let lake = Area::from_quadkeys(["012"])?;
/// assert_eq!(plan.difference(&lake)?.quadkeys(), ["00", "02", "03", "010", "011", "013"]);
/// # Ok::<(), noripliers::Error>(())
/// ```
#[derive(Clone, Debug, Default, PartialEq, Eq, Hash)]
pub struct Area {
    entries: Vec<u64>,
}

/// Whether a list of tiles is settled. Refused by [`Error::TooMany`].
///
/// # Examples
/// ```
/// use noripliers::{Tile, area};
///
/// let (a, b) = (Tile::from_quadkey("0")?, Tile::from_quadkey("12")?);
/// assert!(area::is_settled(&[a, b])?);
/// assert!(!area::is_settled(&[b, a])?);
/// # Ok::<(), noripliers::Error>(())
/// ```
pub fn is_settled(tiles: &[Tile]) -> Result<bool, Error> {
    lent::is_settled(&entries(tiles))
}

impl Area {
    /// The area that tiles cover, in any order, one in another or not. Refused by
    /// [`Error::TooMany`].
    ///
    /// # Examples
    /// ```
    /// use noripliers::{Area, Tile};
    ///
    /// let tiles = Tile::root().children(Some(4))?;
    /// assert_eq!(Area::settle(&tiles)?.tiles(), [Tile::root()]);
    /// assert!(Area::settle(&[])?.is_empty());
    /// # Ok::<(), noripliers::Error>(())
    /// ```
    pub fn settle(tiles: &[Tile]) -> Result<Self, Error> {
        Self::settle_entries(&entries(tiles))
    }

    /// The area of a list of entries. Refused by [`Error::TooMany`] or [`Error::NoTile`].
    ///
    /// # Examples
    /// ```
    /// use noripliers::{Area, Tile};
    ///
    /// assert_eq!(Area::settle_entries(&[Tile::root().entry(); 3])?.len(), 1);
    /// # Ok::<(), noripliers::Error>(())
    /// ```
    pub fn settle_entries(list: &[u64]) -> Result<Self, Error> {
        lend(list.len(), |out| lent::simplify(list, 0, out)).map(Self::given)
    }

    /// The area that the tiles of quadkeys cover. Refused by [`Error::KeyLength`] or
    /// [`Error::KeyByte`] of the first bad key, or by [`Error::TooMany`].
    ///
    /// # Examples
    /// ```
    /// use noripliers::{Area, Error};
    ///
    /// assert_eq!(Area::from_quadkeys(["01", "00", "012"])?.quadkeys(), ["00", "01"]);
    /// assert_eq!(Area::from_quadkeys(["01", "04"]), Err(Error::KeyByte));
    /// # Ok::<(), Error>(())
    /// ```
    pub fn from_quadkeys<K: AsRef<[u8]>>(keys: impl IntoIterator<Item = K>) -> Result<Self, Error> {
        let tiles: Vec<Tile> = keys
            .into_iter()
            .map(Tile::from_quadkey)
            .collect::<Result<_, _>>()?;
        Self::settle(&tiles)
    }

    /// The area of a list that is settled already. Refused by [`Error::NotSettled`] if it is not,
    /// and by [`Error::TooMany`].
    ///
    /// # Examples
    /// ```
    /// use noripliers::{Area, Error, Tile};
    ///
    /// let (a, b) = (Tile::from_quadkey("0")?, Tile::from_quadkey("12")?);
    /// assert_eq!(Area::from_settled(&[a, b])?.len(), 2);
    /// assert_eq!(Area::from_settled(&[b, a]), Err(Error::NotSettled));
    /// # Ok::<(), Error>(())
    /// ```
    pub fn from_settled(tiles: &[Tile]) -> Result<Self, Error> {
        if is_settled(tiles)? {
            Ok(Self::given(entries(tiles)))
        } else {
            Err(Error::NotSettled)
        }
    }

    /// The ground that is in either area.
    ///
    /// # Examples
    /// ```
    /// use noripliers::Area;
    ///
    /// let (a, b) = (Area::from_quadkeys(["0", "1"])?, Area::from_quadkeys(["2", "3"])?);
    /// assert_eq!(a.union(&b)?.quadkeys(), [""]);
    /// # Ok::<(), noripliers::Error>(())
    /// ```
    pub fn union(&self, other: &Self) -> Result<Self, Error> {
        lend(self.len() + other.len(), |out| {
            lent::union(&self.entries, &other.entries, out)
        })
        .map(Self::given)
    }

    /// The ground that is in both areas.
    ///
    /// # Examples
    /// ```
    /// use noripliers::Area;
    ///
    /// let (a, b) = (Area::from_quadkeys(["0", "12"])?, Area::from_quadkeys(["01", "1"])?);
    /// assert_eq!(a.common_part(&b)?.quadkeys(), ["01", "12"]);
    /// # Ok::<(), noripliers::Error>(())
    /// ```
    pub fn common_part(&self, other: &Self) -> Result<Self, Error> {
        lend(self.len() + other.len(), |out| {
            lent::common_part(&self.entries, &other.entries, out)
        })
        .map(Self::given)
    }

    /// The ground that is in this area and not in the other.
    ///
    /// # Examples
    /// ```
    /// use noripliers::Area;
    ///
    /// let (a, b) = (Area::from_quadkeys(["0", "12"])?, Area::from_quadkeys(["01", "1"])?);
    /// assert_eq!(a.difference(&b)?.quadkeys(), ["00", "02", "03"]);
    /// # Ok::<(), noripliers::Error>(())
    /// ```
    pub fn difference(&self, other: &Self) -> Result<Self, Error> {
        // A tile of zoom z that is cut out of one of its ancestors leaves at most three tiles of
        // each zoom to z.
        let cut: usize = other
            .tiles()
            .iter()
            .map(|tile| 3 * usize::from(tile.z()))
            .sum();
        lend(self.len() + cut, |out| {
            lent::difference(&self.entries, &other.entries, out)
        })
        .map(Self::given)
    }

    /// How many tiles the area has.
    ///
    /// # Examples
    /// ```
    /// assert_eq!(noripliers::Area::from_quadkeys(["0", "12"])?.len(), 2);
    /// # Ok::<(), noripliers::Error>(())
    /// ```
    #[must_use]
    pub fn len(&self) -> usize {
        self.entries.len()
    }

    /// Whether the area covers nothing.
    ///
    /// # Examples
    /// ```
    /// assert!(noripliers::Area::default().is_empty());
    /// ```
    #[must_use]
    pub fn is_empty(&self) -> bool {
        self.entries.is_empty()
    }

    /// The tiles, in order.
    ///
    /// # Examples
    /// ```
    /// use noripliers::{Area, Tile};
    ///
    /// assert_eq!(Area::from_quadkeys(["213"])?.tiles(), [Tile::new(3, 5, 3)?]);
    /// # Ok::<(), noripliers::Error>(())
    /// ```
    #[must_use]
    pub fn tiles(&self) -> Vec<Tile> {
        tiles(&self.entries)
    }

    /// The quadkeys of the tiles, in the order of the tiles.
    ///
    /// # Examples
    /// ```
    /// assert_eq!(noripliers::Area::from_quadkeys(["12", "0"])?.quadkeys(), ["0", "12"]);
    /// # Ok::<(), noripliers::Error>(())
    /// ```
    #[must_use]
    pub fn quadkeys(&self) -> Vec<String> {
        self.tiles().iter().map(Tile::quadkey).collect()
    }

    /// The entries of the tiles, for the calls of [`lent`].
    ///
    /// # Examples
    /// ```
    /// use noripliers::{Area, lent};
    ///
    /// let area = Area::from_quadkeys(["0", "12"])?;
    /// assert_eq!(lent::is_settled(area.entries()), Ok(true));
    /// # Ok::<(), noripliers::Error>(())
    /// ```
    #[must_use]
    pub fn entries(&self) -> &[u64] {
        &self.entries
    }

    /// The area of a list that a call has given as settled.
    pub(crate) fn given(entries: Vec<u64>) -> Self {
        Self { entries }
    }
}
