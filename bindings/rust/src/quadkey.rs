//! Quadkeys. A key is text or bytes: whatever is not 0 to 30 of the digits 0, 1, 2 and 3 is refused
//! by [`Error::KeyLength`] or [`Error::KeyByte`].

use crate::answer::{lend, never_refused, told};
use crate::constants::MAX_ZOOM;
use crate::{Error, Tile, ffi, lent};

/// The key of a tile. Refused by [`Error::Zoom`] or [`Error::OffMap`].
///
/// # Examples
/// ```
/// assert_eq!(noripliers::xyz2quadkey(486, 332, 10)?, "0313102310");
/// # Ok::<(), noripliers::Error>(())
/// ```
pub fn xyz2quadkey(x: u32, y: u32, z: u8) -> Result<String, Error> {
    lend(MAX_ZOOM.into(), |out| lent::xyz2quadkey(x, y, z, out)).map(text)
}

/// The key of a tile as numbers from 0 to 3. Refused by [`Error::Zoom`] or [`Error::OffMap`].
///
/// # Examples
/// ```
/// assert_eq!(noripliers::xyz2quadkey_vec(3, 5, 3)?, [2, 1, 3]);
/// # Ok::<(), noripliers::Error>(())
/// ```
pub fn xyz2quadkey_vec(x: u32, y: u32, z: u8) -> Result<Vec<u8>, Error> {
    lend(MAX_ZOOM.into(), |out| lent::xyz2quadkey_vec(x, y, z, out))
}

/// x, y and z of a key.
///
/// # Examples
/// ```
/// use noripliers::{Error, quadkey2xyz};
///
/// assert_eq!(quadkey2xyz("123"), Ok((5, 3, 3)));
/// assert_eq!(quadkey2xyz(b"123"), Ok((5, 3, 3)));
/// assert_eq!(quadkey2xyz("1234"), Err(Error::KeyByte));
/// ```
pub fn quadkey2xyz(quadkey: impl AsRef<[u8]>) -> Result<(u32, u32, u8), Error> {
    quadkey2tile(quadkey).map(Into::into)
}

/// The tile of a key.
///
/// # Examples
/// ```
/// use noripliers::{Tile, quadkey2tile};
///
/// assert_eq!(quadkey2tile("0313102310"), Tile::new(486, 332, 10));
/// ```
pub fn quadkey2tile(quadkey: impl AsRef<[u8]>) -> Result<Tile, Error> {
    lent::quadkey2xyz(quadkey.as_ref())
}

/// The key of the tile with its row counted from the other side.
///
/// # Examples
/// ```
/// assert_eq!(noripliers::quadkey_flipy("0123")?, "2301");
/// # Ok::<(), noripliers::Error>(())
/// ```
pub fn quadkey_flipy(quadkey: impl AsRef<[u8]>) -> Result<String, Error> {
    lend(MAX_ZOOM.into(), |out| {
        lent::quadkey_flipy(quadkey.as_ref(), out)
    })
    .map(text)
}

/// Whether a byte is a digit of a key.
///
/// # Examples
/// ```
/// assert!(noripliers::is_quadkey_byte(b'3'));
/// assert!(!noripliers::is_quadkey_byte(b'4'));
/// ```
#[must_use]
pub fn is_quadkey_byte(b: u8) -> bool {
    never_refused(told(|told| ffi::nori_is_quadkey_byte(b, told)))
}

/// Whether this is a key.
///
/// # Examples
/// ```
/// assert!(noripliers::is_quadkey("0123"));
/// assert!(!noripliers::is_quadkey("0456"));
/// ```
#[must_use]
pub fn is_quadkey(s: impl AsRef<[u8]>) -> bool {
    lent::is_quadkey(s.as_ref())
}

/// The key of the ancestor at zoom n: the first n digits. Refused by [`Error::NoRelative`] where
/// the key is shorter.
///
/// # Examples
/// ```
/// use noripliers::{Error, ancestor_key};
///
/// assert_eq!(ancestor_key("0123", 2), Ok("01"));
/// assert_eq!(ancestor_key("0123", 5), Err(Error::NoRelative));
/// ```
pub fn ancestor_key(key: &str, n: usize) -> Result<&str, Error> {
    lent::ancestor_key(key.as_bytes(), n).map(|part| &key[..part.len()])
}

/// The key of the deepest ancestor that two tiles share, as a part of the first key. A tile counts
/// as its own ancestor here.
///
/// # Examples
/// ```
/// assert_eq!(noripliers::shared_key("0123", "013"), Ok("01"));
/// ```
pub fn shared_key<'a>(a: &'a str, b: &str) -> Result<&'a str, Error> {
    lent::shared_key(a.as_bytes(), b.as_bytes()).map(|part| &a[..part.len()])
}

/// A text that is a key.
///
/// # Examples
/// ```
/// use noripliers::{Error, QuadkeyRef, Tile};
///
/// let key = QuadkeyRef::try_from("213")?;
/// assert_eq!(key.to_tile(), Tile::new(3, 5, 3)?);
/// assert_eq!(QuadkeyRef::try_from("214"), Err(Error::KeyByte));
/// # Ok::<(), Error>(())
/// ```
#[derive(Clone, Copy, Debug, PartialEq, Eq, Hash)]
pub struct QuadkeyRef<'a>(&'a str);

impl<'a> QuadkeyRef<'a> {
    /// The text, if it is a key.
    ///
    /// # Examples
    /// ```
    /// use noripliers::QuadkeyRef;
    ///
    /// assert!(QuadkeyRef::new("213").is_some());
    /// assert!(QuadkeyRef::new("214").is_none());
    /// ```
    #[must_use]
    pub fn new(s: &'a str) -> Option<Self> {
        Self::try_new(s).ok()
    }

    /// The text, or why it is no key.
    ///
    /// # Examples
    /// ```
    /// use noripliers::{Error, QuadkeyRef};
    ///
    /// assert!(QuadkeyRef::try_new("213").is_ok());
    /// assert_eq!(QuadkeyRef::try_new("214"), Err(Error::KeyByte));
    /// ```
    pub fn try_new(s: &'a str) -> Result<Self, Error> {
        lent::quadkey_check(s.as_bytes())?;
        Ok(Self(s))
    }

    /// The text.
    ///
    /// # Examples
    /// ```
    /// assert_eq!(noripliers::QuadkeyRef::try_new("213")?.as_str(), "213");
    /// # Ok::<(), noripliers::Error>(())
    /// ```
    #[must_use]
    pub const fn as_str(&self) -> &'a str {
        self.0
    }

    /// The text's bytes.
    ///
    /// # Examples
    /// ```
    /// assert_eq!(noripliers::QuadkeyRef::try_new("213")?.as_bytes(), b"213");
    /// # Ok::<(), noripliers::Error>(())
    /// ```
    #[must_use]
    pub const fn as_bytes(&self) -> &'a [u8] {
        self.0.as_bytes()
    }

    /// How many digits the key has.
    ///
    /// # Examples
    /// ```
    /// assert_eq!(noripliers::QuadkeyRef::try_new("213")?.len(), 3);
    /// # Ok::<(), noripliers::Error>(())
    /// ```
    #[must_use]
    pub const fn len(&self) -> usize {
        self.0.len()
    }

    /// Whether this is the root's key.
    ///
    /// # Examples
    /// ```
    /// assert!(noripliers::QuadkeyRef::try_new("")?.is_empty());
    /// # Ok::<(), noripliers::Error>(())
    /// ```
    #[must_use]
    pub const fn is_empty(&self) -> bool {
        self.0.is_empty()
    }

    /// The tile's zoom, which is the number of digits.
    ///
    /// # Examples
    /// ```
    /// assert_eq!(noripliers::QuadkeyRef::try_new("213")?.zoom(), 3);
    /// # Ok::<(), noripliers::Error>(())
    /// ```
    #[must_use]
    pub const fn zoom(&self) -> u8 {
        self.len() as u8
    }

    /// The tile's x, y and z.
    ///
    /// # Examples
    /// ```
    /// assert_eq!(noripliers::QuadkeyRef::try_new("213")?.to_xyz(), (3, 5, 3));
    /// # Ok::<(), noripliers::Error>(())
    /// ```
    #[must_use]
    pub fn to_xyz(&self) -> (u32, u32, u8) {
        self.to_tile().into()
    }

    /// The tile.
    ///
    /// # Examples
    /// ```
    /// use noripliers::{QuadkeyRef, Tile};
    ///
    /// assert_eq!(QuadkeyRef::try_new("213")?.to_tile(), Tile::new(3, 5, 3)?);
    /// # Ok::<(), noripliers::Error>(())
    /// ```
    #[must_use]
    pub fn to_tile(&self) -> Tile {
        never_refused(quadkey2tile(self.0))
    }
}

impl<'a> TryFrom<&'a str> for QuadkeyRef<'a> {
    type Error = Error;

    fn try_from(value: &'a str) -> Result<Self, Error> {
        Self::try_new(value)
    }
}

pub(crate) fn text(digits: Vec<u8>) -> String {
    digits.into_iter().map(char::from).collect()
}
