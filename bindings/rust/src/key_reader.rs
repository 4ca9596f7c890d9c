//! A quadkey read byte by byte.

use crate::answer::{accepted, never_refused};
use crate::{Error, Tile, ffi, tile};

/// A reader that is fed the bytes of a quadkey one by one, and tells at any time what those so far
/// are as a whole key.
///
/// It tells just what [`quadkey2tile`](crate::quadkey2tile) answers for all the bytes together: the
/// tile, or why they are no key. It keeps none of them, so a key need never stand in memory: its
/// bytes come from any iterator, and feeding two parts one after the other is feeding the whole.
///
/// A reader never ends. It takes any number of bytes, whatever they are; after more than
/// [`MAX_ZOOM`](crate::constants::MAX_ZOOM) of them it tells [`Error::KeyLength`], however many
/// follow.
///
/// A reader is a few numbers and is copied. What several keys begin with can be read once, kept, and
/// gone on from in several ways.
///
/// # Examples
/// ```
/// use noripliers::{Error, KeyReader, Tile};
///
/// let mut reader = KeyReader::new();
/// reader.extend("21".bytes());
/// assert_eq!(reader.tile(), Tile::new(1, 2, 2));
/// reader.extend(b"3");
/// assert_eq!(reader.tile(), Tile::new(3, 5, 3));
/// assert_eq!(reader, "213".bytes().collect());
/// assert_eq!(reader, b"213".iter().collect());
///
/// let (mut one, mut other) = (reader, reader);
/// one.feed(b'0');
/// other.feed(b'4');
/// assert_eq!(one.tile(), Tile::from_quadkey("2130"));
/// assert_eq!(other.tile(), Err(Error::KeyByte));
///
/// reader.extend([b'0'; 1000]);
/// assert_eq!(reader.tile(), Err(Error::KeyLength));
/// ```
///
/// From what is read, with its errors:
///
/// ```
/// use noripliers::{KeyReader, Tile};
/// use std::io::{self, Read};
///
/// let input = io::Cursor::new("213");
/// let reader: KeyReader = input.bytes().collect::<io::Result<_>>()?;
/// assert_eq!(reader.tile(), Tile::new(3, 5, 3));
/// # Ok::<(), io::Error>(())
/// ```
#[derive(Clone, Copy, Debug, Default, PartialEq, Eq, Hash)]
pub struct KeyReader {
    x: u32,
    y: u32,
    count: u8,
    bad: u8,
}

impl KeyReader {
    /// The reader before the first byte, which is also the default. It tells the root, whose key is
    /// empty.
    ///
    /// # Examples
    /// ```
    /// use noripliers::{KeyReader, Tile};
    ///
    /// assert_eq!(KeyReader::new().tile(), Ok(Tile::root()));
    /// assert_eq!(KeyReader::new(), KeyReader::default());
    /// ```
    #[must_use]
    pub const fn new() -> Self {
        Self {
            x: 0,
            y: 0,
            count: 0,
            bad: 0,
        }
    }

    /// Takes in one byte more.
    ///
    /// # Examples
    /// ```
    /// use noripliers::{KeyReader, Tile};
    ///
    /// let mut reader = KeyReader::new();
    /// reader.feed(b'2');
    /// assert_eq!(reader.tile(), Tile::new(0, 1, 1));
    /// reader.feed(b'1');
    /// assert_eq!(reader.tile(), Tile::new(1, 2, 2));
    /// ```
    pub fn feed(&mut self, byte: u8) {
        let Self { x, y, count, bad } = self;
        never_refused(accepted(ffi::nori_key_feed(byte, x, y, count, bad)));
    }

    /// The tile whose key the bytes so far are. Refused by [`Error::KeyLength`] or
    /// [`Error::KeyByte`] where they are none.
    ///
    /// # Examples
    /// ```
    /// use noripliers::{Error, KeyReader, Tile};
    ///
    /// let tile = |key: &str| key.bytes().collect::<KeyReader>().tile();
    /// assert_eq!(tile("213"), Tile::new(3, 5, 3));
    /// assert_eq!(tile("214"), Err(Error::KeyByte));
    /// assert_eq!(tile(&"0".repeat(31)), Err(Error::KeyLength));
    /// assert_eq!(tile(&"4".repeat(31)), Err(Error::KeyLength));
    /// ```
    pub fn tile(&self) -> Result<Tile, Error> {
        let &Self { x, y, count, bad } = self;
        match tile::given(|tx, ty, tz| ffi::nori_key_tile(x, y, count, bad, tx, ty, tz)) {
            no_state @ Err(Error::NoState) => Ok(never_refused(no_state)),
            told => told,
        }
    }
}

impl Extend<u8> for KeyReader {
    fn extend<I: IntoIterator<Item = u8>>(&mut self, bytes: I) {
        for byte in bytes {
            self.feed(byte);
        }
    }
}

impl<'a> Extend<&'a u8> for KeyReader {
    fn extend<I: IntoIterator<Item = &'a u8>>(&mut self, bytes: I) {
        self.extend(bytes.into_iter().copied());
    }
}

impl FromIterator<u8> for KeyReader {
    fn from_iter<I: IntoIterator<Item = u8>>(bytes: I) -> Self {
        let mut reader = Self::new();
        reader.extend(bytes);
        reader
    }
}

impl<'a> FromIterator<&'a u8> for KeyReader {
    fn from_iter<I: IntoIterator<Item = &'a u8>>(bytes: I) -> Self {
        bytes.into_iter().copied().collect()
    }
}
