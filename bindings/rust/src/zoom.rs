//! Zooms, sets of them and ranges. The zooms of a set go to 30, as a tile's do.

use std::ops::{BitAnd, RangeInclusive};

use crate::answer::{lend, never_refused, value};
use crate::{Error, ffi, lent};

pub use crate::lent::{zvec2zset, zvec2zset_rev};

/// As many places as a set can have zooms, and more than it can have runs of them.
const PLACES: usize = 31;

/// The greatest column, and row, of a zoom. Refused by [`Error::Zoom`] above the deepest zoom of a
/// tile.
///
/// # Examples
/// ```
/// assert_eq!(noripliers::zoom::zoom_max_xy(3), Ok(7));
/// ```
pub fn zoom_max_xy(zoom: u8) -> Result<u32, Error> {
    value(|max| ffi::nori_zoom_max_xy(zoom, max))
}

/// The zooms of a set's number, in order; a set with bit 31 is read the other way round, zoom i as
/// bit 30 - i.
///
/// # Examples
/// ```
/// use noripliers::zset2zvec;
///
/// assert_eq!(zset2zvec(0b100_001), [0, 5]);
/// assert_eq!(zset2zvec(1 << 31 | 1 << 30), [0]);
/// ```
#[must_use]
pub fn zset2zvec(zset: u32) -> Vec<u8> {
    never_refused(lend(PLACES, |out| lent::zset2zvec(zset, out)))
}

/// The zooms of a set's number that is turned round first.
///
/// # Examples
/// ```
/// use noripliers::zset2zvec_rev;
///
/// assert_eq!(zset2zvec_rev(1 << 30), [0]);
/// ```
#[must_use]
pub fn zset2zvec_rev(zset: u32) -> Vec<u8> {
    never_refused(lend(PLACES, |out| lent::zset2zvec_rev(zset, out)))
}

/// The maximal runs of a set's zooms from 0 to 30, rising; there are at most 16. Bit 31 is no zoom,
/// and turns nothing round here. utiles leaves out the zooms 0 and 30.
///
/// # Examples
/// ```
/// use noripliers::ZoomRange;
/// use noripliers::zoom::zoom_ranges;
///
/// assert_eq!(zoom_ranges(0b10_111), [ZoomRange::new(0, 2), ZoomRange::new(4, 4)]);
/// assert_eq!(zoom_ranges(3 << 30), [ZoomRange::new(30, 30)]);
/// ```
#[must_use]
pub fn zoom_ranges(zset: u32) -> Vec<ZoomRange> {
    ranges(|lows, highs| lent::zoom_ranges(zset, lows, highs))
}

fn ranges(call: impl FnOnce(&mut [u8], &mut [u8]) -> Result<usize, Error>) -> Vec<ZoomRange> {
    let mut highs = [0; PLACES];
    let lows = never_refused(lend(PLACES, |lows| call(lows, &mut highs)));
    lows.into_iter()
        .zip(highs)
        .map(|(min, max)| ZoomRange::new(min, max))
        .collect()
}

/// The bit 31 - i of a zoom i, which is how [`zvec2zset_rev`] counts. Refused by [`Error::Zoom`]
/// above zoom 30.
///
/// # Examples
/// ```
/// assert_eq!(noripliers::zoom::zoom_bit_rev(0), Ok(1 << 31));
/// ```
pub fn zoom_bit_rev(zoom: u8) -> Result<u32, Error> {
    value(|bit| ffi::nori_zoom_bit_rev(zoom, bit))
}

/// A set of zooms: bit i of its number is zoom i, or bit 30 - i where bit 31 is set.
///
/// # Examples
/// ```
/// use noripliers::{ZoomRange, ZoomSet};
///
/// let zooms = ZoomSet::try_from(vec![0, 1, 2, 4])?;
/// assert_eq!(zooms, ZoomSet::from(0b10_111));
/// assert_eq!(ZoomSet::try_from(4u8)?, ZoomSet::new(1 << 4));
/// assert_eq!(Vec::from(zooms & ZoomSet::try_from(ZoomRange::new(2, 9))?), [2, 4]);
/// assert_eq!(Vec::from(zooms & 0b11), [0, 1]);
/// assert_eq!(Vec::from(0b11 & zooms), [0, 1]);
/// # Ok::<(), noripliers::Error>(())
/// ```
#[derive(Clone, Copy, Debug, Default, PartialEq, Eq, Hash)]
pub struct ZoomSet(u32);

impl ZoomSet {
    /// The set of a number.
    ///
    /// # Examples
    /// ```
    /// use noripliers::ZoomSet;
    ///
    /// assert_eq!(ZoomSet::new(33).to_zooms(), [0, 5]);
    /// ```
    #[must_use]
    pub const fn new(zset: u32) -> Self {
        Self(zset)
    }

    /// The set of these zooms. Refused by [`Error::Zoom`] above zoom 30, and by [`Error::TooMany`].
    ///
    /// # Examples
    /// ```
    /// use noripliers::{Error, ZoomSet};
    ///
    /// assert_eq!(ZoomSet::from_zooms(&[5, 0]), Ok(ZoomSet::new(33)));
    /// assert_eq!(ZoomSet::from_zooms(&[31]), Err(Error::Zoom));
    /// ```
    pub fn from_zooms(zooms: &[u8]) -> Result<Self, Error> {
        lent::from_zooms(zooms).map(Self)
    }

    /// The set of one zoom. Refused by [`Error::Zoom`] above zoom 30.
    ///
    /// # Examples
    /// ```
    /// use noripliers::ZoomSet;
    ///
    /// assert_eq!(ZoomSet::from_zoom(5), Ok(ZoomSet::new(32)));
    /// ```
    pub fn from_zoom(zoom: u8) -> Result<Self, Error> {
        value(|zset| ffi::nori_zset_from_zoom(zoom, zset)).map(Self)
    }

    /// The zooms from 0 to 30.
    ///
    /// # Examples
    /// ```
    /// use noripliers::ZoomSet;
    ///
    /// assert_eq!(ZoomSet::all().to_zooms().len(), 31);
    /// ```
    #[must_use]
    pub fn all() -> Self {
        Self(never_refused(value(|zset| ffi::nori_zset_all(zset))))
    }

    /// The zooms in order.
    ///
    /// # Examples
    /// ```
    /// use noripliers::ZoomSet;
    ///
    /// assert_eq!(ZoomSet::new(0b111).to_zooms(), [0, 1, 2]);
    /// ```
    #[must_use]
    pub fn to_zooms(&self) -> Vec<u8> {
        never_refused(lend(PLACES, |out| lent::to_zooms(self.0, out)))
    }

    /// The maximal runs of the zooms from 0 to 30, rising, as the set's number stands: here bit 31
    /// turns nothing round.
    ///
    /// # Examples
    /// ```
    /// use noripliers::{ZoomRange, ZoomSet};
    ///
    /// assert_eq!(ZoomSet::new(0b10_111).zoom_ranges(), [ZoomRange::new(0, 2), ZoomRange::new(4, 4)]);
    /// ```
    #[must_use]
    pub fn zoom_ranges(&self) -> Vec<ZoomRange> {
        ranges(|lows, highs| lent::set_zoom_ranges(self.0, lows, highs))
    }

    /// What the set has of the bit of [`zoom_bit_rev`]: utiles' `&` with a zoom. Refused by
    /// [`Error::Zoom`] above zoom 30.
    ///
    /// # Examples
    /// ```
    /// use noripliers::ZoomSet;
    ///
    /// assert_eq!(ZoomSet::new(1 << 26 | 1).and_zoom(5), Ok(ZoomSet::new(1 << 26)));
    /// ```
    pub fn and_zoom(&self, zoom: u8) -> Result<Self, Error> {
        value(|zset| ffi::nori_zset_and_zoom(self.0, zoom, zset)).map(Self)
    }

    /// The set's number.
    ///
    /// # Examples
    /// ```
    /// use noripliers::ZoomSet;
    ///
    /// assert_eq!(ZoomSet::from_zooms(&[0, 5])?.number(), 33);
    /// # Ok::<(), noripliers::Error>(())
    /// ```
    #[must_use]
    pub const fn number(&self) -> u32 {
        self.0
    }
}

impl From<u32> for ZoomSet {
    fn from(zset: u32) -> Self {
        Self(zset)
    }
}

impl From<ZoomSet> for Vec<u8> {
    fn from(zset: ZoomSet) -> Self {
        zset.to_zooms()
    }
}

impl TryFrom<u8> for ZoomSet {
    type Error = Error;

    fn try_from(zoom: u8) -> Result<Self, Error> {
        Self::from_zoom(zoom)
    }
}

impl TryFrom<Vec<u8>> for ZoomSet {
    type Error = Error;

    fn try_from(zvec: Vec<u8>) -> Result<Self, Error> {
        Self::from_zooms(&zvec)
    }
}

impl TryFrom<ZoomRange> for ZoomSet {
    type Error = Error;

    fn try_from(range: ZoomRange) -> Result<Self, Error> {
        value(|zset| ffi::nori_zoom_set(range.min, range.max, zset)).map(Self)
    }
}

impl BitAnd for ZoomSet {
    type Output = Self;

    fn bitand(self, rhs: Self) -> Self {
        Self(never_refused(value(|zset| {
            ffi::nori_zset_and(self.0, rhs.0, zset)
        })))
    }
}

impl BitAnd<u32> for ZoomSet {
    type Output = Self;

    fn bitand(self, rhs: u32) -> Self {
        Self(never_refused(value(|zset| {
            ffi::nori_zset_and_bits(self.0, rhs, zset)
        })))
    }
}

impl BitAnd<ZoomSet> for u32 {
    type Output = ZoomSet;

    fn bitand(self, rhs: ZoomSet) -> ZoomSet {
        rhs & self
    }
}

/// The zooms from one to another, both included; none where `min` is above `max`.
///
/// # Examples
/// ```
/// use noripliers::ZoomRange;
///
/// let zooms: Vec<u8> = ZoomRange { min: 3, max: 5 }.into_iter().collect();
/// assert_eq!(zooms, [3, 4, 5]);
/// assert_eq!(ZoomRange::default(), ZoomRange::new(0, 30));
/// ```
#[derive(Clone, Copy, Debug, PartialEq, Eq, Hash)]
pub struct ZoomRange {
    /// The lowest zoom.
    pub min: u8,
    /// The highest zoom.
    pub max: u8,
}

impl ZoomRange {
    /// The range from `min` to `max`.
    ///
    /// # Examples
    /// ```
    /// use noripliers::{ZoomRange, ZoomSet};
    ///
    /// assert_eq!(ZoomSet::try_from(ZoomRange::new(0, 7)), Ok(ZoomSet::new(0b1111_1111)));
    /// ```
    #[must_use]
    pub const fn new(min: u8, max: u8) -> Self {
        Self { min, max }
    }

    /// The range from 0 to `max`.
    ///
    /// # Examples
    /// ```
    /// use noripliers::ZoomRange;
    ///
    /// assert_eq!(ZoomRange::from_max(7), ZoomRange::new(0, 7));
    /// ```
    #[must_use]
    pub fn from_max(max: u8) -> Self {
        range(|low, high| ffi::nori_zoom_range_from_max(max, low, high))
    }

    /// The range from `min` to 30.
    ///
    /// # Examples
    /// ```
    /// use noripliers::ZoomRange;
    ///
    /// assert_eq!(ZoomRange::from_min(7), ZoomRange::new(7, 30));
    /// ```
    #[must_use]
    pub fn from_min(min: u8) -> Self {
        range(|low, high| ffi::nori_zoom_range_from_min(min, low, high))
    }
}

fn range(call: impl FnOnce(&mut u8, &mut u8) -> u8) -> ZoomRange {
    let (min, max) = never_refused(value(|(low, high)| call(low, high)));
    ZoomRange { min, max }
}

impl Default for ZoomRange {
    fn default() -> Self {
        range(|low, high| ffi::nori_zoom_range_default(low, high))
    }
}

impl IntoIterator for ZoomRange {
    type Item = u8;
    type IntoIter = RangeInclusive<u8>;

    fn into_iter(self) -> RangeInclusive<u8> {
        self.min..=self.max
    }
}
