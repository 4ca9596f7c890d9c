//! Boxes in degrees. Their numbers are any, and no call on them is refused; a comparison with NaN
//! is false.

use crate::answer::{never_refused, told, value};
use crate::{LngLat, ffi};

/// A box in degrees. Where west is above east it crosses the antimeridian.
///
/// # Examples
/// ```
/// use noripliers::{BBox, LngLat};
///
/// let fiji = BBox::from((176.0, -20.0, -178.0, -15.0));
/// assert!(fiji.contains_lnglat(&LngLat::new(-179.0, -17.0)));
/// assert_eq!(<(f64, f64, f64, f64)>::from(fiji), (176.0, -20.0, -178.0, -15.0));
/// ```
#[derive(Clone, Copy, Debug, PartialEq)]
pub struct BBox {
    /// The western side.
    pub west: f64,
    /// The southern side.
    pub south: f64,
    /// The eastern side.
    pub east: f64,
    /// The northern side.
    pub north: f64,
}

type OfOne = extern "C" fn(f64, f64, f64, f64, &mut u8) -> u8;
type OfTwo = extern "C" fn(f64, f64, f64, f64, f64, f64, f64, f64, &mut u8) -> u8;

impl BBox {
    /// The box of these sides.
    ///
    /// # Examples
    /// ```
    /// use noripliers::BBox;
    ///
    /// assert_eq!(BBox::new(-10.0, -5.0, 10.0, 5.0).north, 5.0);
    /// ```
    #[must_use]
    pub const fn new(west: f64, south: f64, east: f64, north: f64) -> Self {
        Self {
            west,
            south,
            east,
            north,
        }
    }

    /// West, south, east, north.
    ///
    /// # Examples
    /// ```
    /// use noripliers::BBox;
    ///
    /// assert_eq!(BBox::new(-10.0, -5.0, 10.0, 5.0).tuple(), (-10.0, -5.0, 10.0, 5.0));
    /// ```
    #[must_use]
    pub const fn tuple(&self) -> (f64, f64, f64, f64) {
        (self.west, self.south, self.east, self.north)
    }

    /// Whether the box crosses the antimeridian: west is above east.
    ///
    /// # Examples
    /// ```
    /// use noripliers::BBox;
    ///
    /// assert!(BBox::new(179.0, -5.0, -179.0, 5.0).crosses_antimeridian());
    /// ```
    #[must_use]
    pub fn crosses_antimeridian(&self) -> bool {
        self.told(ffi::nori_bbox_crosses_antimeridian)
    }

    /// The same as [`BBox::crosses_antimeridian`].
    ///
    /// # Examples
    /// ```
    /// use noripliers::BBox;
    ///
    /// assert!(!BBox::new(-179.0, -5.0, 179.0, 5.0).is_antimeridian());
    /// ```
    #[must_use]
    pub fn is_antimeridian(&self) -> bool {
        self.told(ffi::nori_bbox_is_antimeridian)
    }

    /// Whether a place is in the box or on its sides.
    ///
    /// # Examples
    /// ```
    /// use noripliers::{BBox, LngLat};
    ///
    /// let bbox = BBox::new(-10.0, -5.0, 10.0, 5.0);
    /// assert!(bbox.contains_lnglat(&LngLat::new(10.0, 0.0)));
    /// assert!(!bbox.contains_lnglat(&LngLat::new(f64::NAN, 0.0)));
    /// ```
    #[must_use]
    pub fn contains_lnglat(&self, lnglat: &LngLat) -> bool {
        let Self {
            west,
            south,
            east,
            north,
        } = *self;
        never_refused(told(|told| {
            ffi::nori_bbox_contains_lnglat(west, south, east, north, lnglat.lng, lnglat.lat, told)
        }))
    }

    /// Whether another box is in the box.
    ///
    /// # Examples
    /// ```
    /// use noripliers::BBox;
    ///
    /// let bbox = BBox::new(-10.0, -5.0, 10.0, 5.0);
    /// assert!(bbox.contains_bbox(&BBox::new(0.0, 0.0, 10.0, 5.0)));
    /// assert!(!bbox.contains_bbox(&BBox::new(0.0, 0.0, 11.0, 5.0)));
    /// ```
    #[must_use]
    pub fn contains_bbox(&self, other: &Self) -> bool {
        self.told_with(other, ffi::nori_bbox_contains_bbox)
    }

    /// Whether the box is within another, with no notice of the antimeridian.
    ///
    /// # Examples
    /// ```
    /// use noripliers::BBox;
    ///
    /// let bbox = BBox::new(-10.0, -5.0, 10.0, 5.0);
    /// assert!(bbox.is_within(&BBox::new(-20.0, -5.0, 20.0, 5.0)));
    /// ```
    #[must_use]
    pub fn is_within(&self, other: &Self) -> bool {
        self.told_with(other, ffi::nori_bbox_is_within)
    }

    /// Whether two boxes have a place in common, with no notice of the antimeridian.
    ///
    /// # Examples
    /// ```
    /// use noripliers::BBox;
    ///
    /// let bbox = BBox::new(-10.0, -5.0, 10.0, 5.0);
    /// assert!(bbox.intersects(&BBox::new(10.0, 5.0, 20.0, 20.0)));
    /// assert!(!bbox.intersects(&BBox::new(11.0, 5.0, 20.0, 20.0)));
    /// ```
    #[must_use]
    pub fn intersects(&self, other: &Self) -> bool {
        self.told_with(other, ffi::nori_bbox_intersects)
    }

    /// The box itself, or its two parts where it crosses the antimeridian.
    ///
    /// # Examples
    /// ```
    /// use noripliers::BBox;
    ///
    /// let parts = BBox::new(179.0, -5.0, -178.0, 5.0).bboxes();
    /// assert_eq!(parts, [BBox::new(179.0, -5.0, 180.0, 5.0), BBox::new(-180.0, -5.0, -178.0, 5.0)]);
    /// ```
    #[must_use]
    pub fn bboxes(&self) -> Vec<Self> {
        let Self {
            west,
            south,
            east,
            north,
        } = *self;
        let (mut a, mut b) = (Self::new(0.0, 0.0, 0.0, 0.0), Self::new(0.0, 0.0, 0.0, 0.0));
        let count = never_refused(value(|count| {
            ffi::nori_bbox_bboxes(
                west,
                south,
                east,
                north,
                count,
                &mut a.west,
                &mut a.south,
                &mut a.east,
                &mut a.north,
                &mut b.west,
                &mut b.south,
                &mut b.east,
                &mut b.north,
            )
        }));
        [a, b].into_iter().take(usize::from(count)).collect()
    }

    fn told(&self, call: OfOne) -> bool {
        never_refused(told(|told| {
            call(self.west, self.south, self.east, self.north, told)
        }))
    }

    fn told_with(&self, other: &Self, call: OfTwo) -> bool {
        let (west, south, east, north) = other.tuple();
        never_refused(told(|told| {
            call(
                self.west, self.south, self.east, self.north, west, south, east, north, told,
            )
        }))
    }
}

impl From<(f64, f64, f64, f64)> for BBox {
    fn from((west, south, east, north): (f64, f64, f64, f64)) -> Self {
        Self::new(west, south, east, north)
    }
}

impl From<BBox> for (f64, f64, f64, f64) {
    fn from(bbox: BBox) -> Self {
        bbox.tuple()
    }
}
