//! The limits of the library.

use crate::answer::{never_refused, value};
use crate::ffi;

/// The version of this crate and of the archive that it is built with: 10,000 for each major number,
/// 100 for each minor one and 1 for each patch. Building it with another archive fails.
pub const VERSION: u32 = ffi::VERSION;

/// The version of the archive that is linked, as it tells it.
///
/// # Examples
/// ```
/// use noripliers::constants::{VERSION, version};
///
/// assert_eq!(version(), VERSION);
/// ```
pub fn version() -> u32 {
    never_refused(value(|version| ffi::nori_version(version)))
}

/// The deepest zoom of a tile, as in utiles, whose quadkeys end one zoom before.
///
/// # Examples
/// ```
/// use noripliers::Tile;
/// use noripliers::constants::MAX_ZOOM;
///
/// assert!(Tile::new(0, 0, MAX_ZOOM).is_ok());
/// assert!(Tile::new(0, 0, MAX_ZOOM + 1).is_err());
/// ```
pub const MAX_ZOOM: u8 = ffi::MAX_ZOOM;

/// The most digits of a quadkey: one for each zoom.
///
/// # Examples
/// ```
/// use noripliers::Tile;
/// use noripliers::constants::{MAX_DIGITS, MAX_ZOOM};
///
/// assert_eq!(Tile::new(0, 0, MAX_ZOOM)?.quadkey().len(), MAX_DIGITS);
/// # Ok::<(), noripliers::Error>(())
/// ```
pub const MAX_DIGITS: usize = ffi::MAX_DIGITS;

/// The deepest zoom whose tiles have a number of [`to_id`](crate::to_id): deeper ones would not fit
/// 64 bits.
///
/// # Examples
/// ```
/// use noripliers::constants::MAX_ID_ZOOM;
/// use noripliers::to_id;
///
/// assert!(to_id(0, 0, MAX_ID_ZOOM).is_ok());
/// assert!(to_id(0, 0, MAX_ID_ZOOM + 1).is_err());
/// ```
pub const MAX_ID_ZOOM: u8 = ffi::MAX_ID_ZOOM;

/// The most entries of a list that goes into a call.
///
/// # Examples
/// ```
/// use noripliers::constants::MAX_ENTRIES;
/// use noripliers::{Tile, simplify};
///
/// assert_eq!(simplify(&[Tile::root(); MAX_ENTRIES], None)?, [Tile::root()]);
/// assert!(simplify(&[Tile::root(); MAX_ENTRIES + 1], None).is_err());
/// # Ok::<(), noripliers::Error>(())
/// ```
pub const MAX_ENTRIES: usize = ffi::MAX_ENTRIES;

/// The most boxes of [`TileZBoxes`](crate::TileZBoxes).
///
/// # Examples
/// ```
/// use noripliers::constants::MAX_BOXES;
/// use noripliers::{Tile, TileZBoxes};
///
/// assert_eq!(TileZBoxes::try_from(vec![Tile::root().zbox(); MAX_BOXES])?.length(), 8);
/// assert!(TileZBoxes::try_from(vec![Tile::root().zbox(); MAX_BOXES + 1]).is_err());
/// # Ok::<(), noripliers::Error>(())
/// ```
pub const MAX_BOXES: usize = ffi::MAX_BOXES;

/// The most bytes of a form line, without its newline.
///
/// # Examples
/// ```
/// use noripliers::constants::MAX_LINE;
/// use noripliers::{Error, form};
///
/// assert_eq!(form::check(&[b' '; MAX_LINE]), Err(Error::NoForm));
/// assert_eq!(form::check(&[b' '; MAX_LINE + 1]), Err(Error::LineLength));
/// ```
pub const MAX_LINE: usize = ffi::MAX_LINE;

/// The most brackets that may be open at once in a form line.
///
/// # Examples
/// ```
/// use noripliers::constants::MAX_OPEN;
/// use noripliers::{Error, form};
///
/// assert_eq!(form::check(&[b'('; MAX_OPEN]), Err(Error::NoForm));
/// assert_eq!(form::check(&[b'('; MAX_OPEN + 1]), Err(Error::Brackets));
/// ```
pub const MAX_OPEN: usize = ffi::MAX_OPEN;

/// The most tiles of each list of a form line.
///
/// # Examples
/// ```
/// use noripliers::constants::FORM_PLACES;
/// use noripliers::{Error, form};
///
/// let line = |keys| format!("(tiles{})", " 0".repeat(keys));
/// assert_eq!(form::area(line(FORM_PLACES).as_bytes())?.len(), 1);
/// assert_eq!(form::area(line(FORM_PLACES + 1).as_bytes()), Err(Error::Memory));
/// # Ok::<(), Error>(())
/// ```
pub const FORM_PLACES: usize = ffi::FORM_PLACES;

/// How many bytes of a form line are kept between two chunks: one more than a line may have.
///
/// # Examples
/// ```
/// use noripliers::constants::KEPT;
/// use noripliers::lent;
///
/// let mut line = [0; KEPT];
/// let mut out = [0; 100];
/// let fed = lent::form_feed(b"(tiles", &mut line, 0, &mut out);
/// assert_eq!(&line[..fed.kept], b"(tiles");
/// ```
pub const KEPT: usize = ffi::KEPT;
