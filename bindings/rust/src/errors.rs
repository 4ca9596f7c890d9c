//! The refusals of the library.

use std::fmt;

use crate::ffi;

/// Why a call was refused.
///
/// Each refusal has a [number](Error::number), which is what the call returns in C. Later versions
/// of the library add numbers, so a `match` needs an arm for the rest.
///
/// # Examples
/// ```
/// use noripliers::{area, form, lent};
/// use noripliers::{Error, Tile, TileZBox, quadkey2tile, simplify};
///
/// let tiles = |keys: &[&str]| keys.iter().map(|key| quadkey2tile(key).unwrap()).collect::<Vec<Tile>>();
///
/// assert_eq!(Tile::new(0, 0, 31), Err(Error::Zoom));
/// assert_eq!(Tile::new(8, 0, 3), Err(Error::OffMap));
/// assert_eq!(Tile::root().parent(None), Err(Error::NoRelative));
/// assert_eq!(quadkey2tile("0".repeat(31)), Err(Error::KeyLength));
/// assert_eq!(quadkey2tile("04"), Err(Error::KeyByte));
/// assert_eq!(simplify(&vec![Tile::root(); 65_537], None), Err(Error::TooMany));
/// assert_eq!(Tile::from_entry(u64::MAX), Err(Error::NoTile));
/// assert_eq!(TileZBox::from_tiles(&[]), Err(Error::EmptyList));
/// assert_eq!(TileZBox::from_tiles(&tiles(&["0", "00"])), Err(Error::MixedZooms));
/// assert_eq!(TileZBox::new(3, 2, 0, 0, 5), Err(Error::NoBox));
/// assert_eq!(area::Area::from_settled(&tiles(&["0", "00"])), Err(Error::NotSettled));
/// assert_eq!(lent::siblings(0, 0, 1, &mut [0; 2]), Err(Error::Memory));
/// assert_eq!(form::check(&[b'('; 4097]), Err(Error::LineLength));
/// assert_eq!(form::check(&[b'('; 17]), Err(Error::Brackets));
/// assert_eq!(form::check(b"tiles"), Err(Error::NoForm));
/// assert_eq!(Error::NoState.number(), 16);
/// ```
#[non_exhaustive]
#[derive(Clone, Copy, Debug, PartialEq, Eq, Hash)]
pub enum Error {
    /// 1: a zoom above the deepest one.
    Zoom,
    /// 2: x or y off the map.
    OffMap,
    /// 3: no such ancestor or sibling.
    NoRelative,
    /// 4: a key with more digits than there are zooms.
    KeyLength,
    /// 5: a byte in a key that is no digit of one.
    KeyByte,
    /// 6: too many entries in a list, or too many boxes.
    TooMany,
    /// 7: a number that is no tile's.
    NoTile,
    /// 8: no tile to make a box of.
    EmptyList,
    /// 9: tiles of mixed zooms in one box.
    MixedZooms,
    /// 10: a box that is upside down or off the map.
    NoBox,
    /// 11: a list that is not settled.
    NotSettled,
    /// 12: memory that is too short. A call that lends memory itself gives it where it cannot get
    /// any.
    Memory,
    /// 13: a line that is too long.
    LineLength,
    /// 14: too many open brackets in a line.
    Brackets,
    /// 15: a line that is no form.
    NoForm,
    /// 16: a state that no calls leave. The types of this crate hold none such, so that no call of
    /// the crate gives it: it is here for its number.
    NoState,
    /// Any other number: the archive is newer than this crate and knows a refusal that the crate
    /// has no name for.
    Unknown(u8),
}

/// The cases in the order of their numbers, from 1 on.
const CASES: [Error; 16] = [
    Error::Zoom,
    Error::OffMap,
    Error::NoRelative,
    Error::KeyLength,
    Error::KeyByte,
    Error::TooMany,
    Error::NoTile,
    Error::EmptyList,
    Error::MixedZooms,
    Error::NoBox,
    Error::NotSettled,
    Error::Memory,
    Error::LineLength,
    Error::Brackets,
    Error::NoForm,
    Error::NoState,
];

impl Error {
    /// The number of the refusal, never 0.
    ///
    /// # Examples
    /// ```
    /// use noripliers::Tile;
    ///
    /// assert_eq!(Tile::new(0, 0, 31).unwrap_err().number(), 1);
    /// assert_eq!(Tile::new(8, 0, 3).unwrap_err().number(), 2);
    /// ```
    #[must_use]
    pub fn number(&self) -> u8 {
        match self {
            Error::Unknown(number) => *number,
            case => (1..)
                .zip(CASES)
                .find(|(_, other)| other == case)
                .map_or(0, |(number, _)| number),
        }
    }

    /// The refusal of a number that is not 0.
    pub(crate) fn of(number: u8) -> Error {
        let place = usize::from(number).wrapping_sub(1);
        CASES.get(place).copied().unwrap_or(Error::Unknown(number))
    }
}

impl fmt::Display for Error {
    fn fmt(&self, f: &mut fmt::Formatter<'_>) -> fmt::Result {
        match self {
            Error::Zoom => write!(
                f,
                "a zoom is above {}, the deepest one, or above {} for a number of to_id",
                ffi::MAX_ZOOM,
                ffi::MAX_ID_ZOOM
            ),
            Error::OffMap => write!(f, "x or y is off the map: both are below 2^z"),
            Error::NoRelative => write!(f, "there is no such ancestor or sibling"),
            Error::KeyLength => write!(f, "a quadkey has more than {} bytes", ffi::MAX_ZOOM),
            Error::KeyByte => write!(
                f,
                "a quadkey has a byte that is none of the digits 0, 1, 2 and 3"
            ),
            Error::TooMany => {
                write!(
                    f,
                    "a list has more than {} entries, or more than {} boxes",
                    ffi::MAX_ENTRIES,
                    ffi::MAX_BOXES
                )
            }
            Error::NoTile => write!(f, "a number is no tile's"),
            Error::EmptyList => write!(f, "there is no tile to make a box of"),
            Error::MixedZooms => write!(f, "the tiles for one box have different zooms"),
            Error::NoBox => write!(
                f,
                "a box has its least above its greatest, is off the map, or has no tiles left"
            ),
            Error::NotSettled => {
                write!(
                    f,
                    "a list is not settled: out of order, a tile beside its ancestor, or four siblings together"
                )
            }
            Error::Memory => write!(f, "there is too little memory for the answer"),
            Error::LineLength => write!(f, "a line has more than {} bytes", ffi::MAX_LINE),
            Error::Brackets => write!(
                f,
                "a line has more than {} brackets open at once",
                ffi::MAX_OPEN
            ),
            Error::NoForm => write!(f, "a line is no form"),
            Error::NoState => write!(f, "the numbers of a state are none that calls leave"),
            Error::Unknown(_) => write!(
                f,
                "the archive gives a reason that this crate has no words for"
            ),
        }?;
        write!(f, " (refusal {})", self.number())
    }
}

impl std::error::Error for Error {}
