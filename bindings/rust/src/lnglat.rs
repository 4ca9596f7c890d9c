//! A place in degrees.

/// A place: longitude and latitude in degrees, any two numbers.
///
/// # Examples
/// ```
/// use noripliers::LngLat;
///
/// let place = LngLat { lng: 13.4, lat: 52.5 };
/// assert_eq!(LngLat::from((13.4, 52.5)), place);
/// ```
#[derive(Clone, Copy, Debug, PartialEq)]
pub struct LngLat {
    /// The longitude.
    pub lng: f64,
    /// The latitude.
    pub lat: f64,
}

impl LngLat {
    /// The place of a longitude and a latitude.
    ///
    /// # Examples
    /// ```
    /// use noripliers::LngLat;
    ///
    /// assert_eq!(LngLat::new(13.4, 52.5).lng, 13.4);
    /// ```
    #[must_use]
    pub const fn new(lng: f64, lat: f64) -> Self {
        Self { lng, lat }
    }

    /// The longitude.
    ///
    /// # Examples
    /// ```
    /// use noripliers::LngLat;
    ///
    /// assert_eq!(LngLat::new(13.4, 52.5).lng(), 13.4);
    /// ```
    #[must_use]
    pub const fn lng(&self) -> f64 {
        self.lng
    }

    /// The latitude.
    ///
    /// # Examples
    /// ```
    /// use noripliers::LngLat;
    ///
    /// assert_eq!(LngLat::new(13.4, 52.5).lat(), 52.5);
    /// ```
    #[must_use]
    pub const fn lat(&self) -> f64 {
        self.lat
    }
}

impl From<(f64, f64)> for LngLat {
    fn from((lng, lat): (f64, f64)) -> Self {
        Self::new(lng, lat)
    }
}
