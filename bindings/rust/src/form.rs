//! Form lines: areas that are written as text, which utiles does not have.
//!
//! A form is `(tiles K K ..)`, which settles the tiles of the quadkeys (`-` is the root's), or
//! `(plus F F)`, `(both F F)`, `(minus F F)` of two forms: union, common part and difference. A
//! line has at most 4,096 bytes and 16 open brackets, each list 256 places.

use crate::answer::{lend, never_refused};
use crate::constants::{FORM_PLACES, KEPT, MAX_ZOOM};
use crate::{Area, Error, lent};

/// Places for any answer and its newline: brackets, a count, and a space and a key for each tile.
const ANSWER: usize = 30 + FORM_PLACES * (1 + MAX_ZOOM as usize);

/// Whether a line is a form, and if not, why: [`Error::LineLength`], [`Error::Brackets`] or
/// [`Error::NoForm`]. Its keys are not read.
///
/// # Examples
/// ```
/// use noripliers::{Error, form};
///
/// assert_eq!(form::check(b"(plus (tiles 0) (tiles 4))"), Ok(()));
/// assert_eq!(form::check(b"(plus (tiles 0))"), Err(Error::NoForm));
/// ```
pub fn check(line: &[u8]) -> Result<(), Error> {
    lent::form_check(line)
}

/// The area of a form. Refused as [`check`] says, then by [`Error::KeyLength`] or
/// [`Error::KeyByte`] of a key, or by [`Error::Memory`] for a list of over 256 tiles.
///
/// # Examples
/// ```
/// use noripliers::{Error, form};
///
/// let area = form::area(b"(minus (tiles 0) (tiles 012))")?;
/// assert_eq!(area.quadkeys(), ["00", "02", "03", "010", "011", "013"]);
/// assert_eq!(form::area(b"(tiles 4)"), Err(Error::KeyByte));
/// # Ok::<(), Error>(())
/// ```
pub fn area(line: &[u8]) -> Result<Area, Error> {
    lend(FORM_PLACES, |out| lent::form_area(line, out)).map(Area::given)
}

/// What is printed for a line, without a newline: how many tiles its area has, then their quadkeys,
/// or the refusal.
///
/// # Examples
/// ```
/// use noripliers::form;
///
/// assert_eq!(form::answer(b"(plus (tiles 0 1) (tiles 2 3))"), b"(1 -)");
/// assert_eq!(form::answer(b"(tiles 4)"), b"(refused 5)");
/// ```
#[must_use]
pub fn answer(line: &[u8]) -> Vec<u8> {
    never_refused(lend(ANSWER, |out| lent::form_answer(line, out)))
}

/// Lines that come in chunks of any size.
///
/// # Examples
/// ```
/// use noripliers::form::Lines;
///
/// let mut lines = Lines::new();
/// assert_eq!(lines.feed(b"(tiles 00 01 0"), b"");
/// assert_eq!(lines.feed(b"2 03)\n(tiles)\n(both (tiles 1) (t"), b"(1 0)\n(0)\n");
/// assert_eq!(lines.feed(b"iles 0))"), b"");
/// assert_eq!(lines.finish(), b"(0)\n");
/// ```
#[derive(Clone, Debug)]
pub struct Lines {
    line: [u8; KEPT],
    len: usize,
}

impl Lines {
    /// Nothing has come yet.
    ///
    /// # Examples
    /// ```
    /// use noripliers::form::Lines;
    ///
    /// assert_eq!(Lines::new().finish(), b"");
    /// ```
    #[must_use]
    pub const fn new() -> Self {
        Self {
            line: [0; KEPT],
            len: 0,
        }
    }

    /// Takes in a chunk, and gives the answers of the lines that end in it, each with a newline.
    ///
    /// # Examples
    /// ```
    /// use noripliers::form::Lines;
    ///
    /// assert_eq!(Lines::new().feed(b"(tiles 0)\n(tiles 4)\n(til"), b"(1 0)\n(refused 5)\n");
    /// ```
    pub fn feed(&mut self, chunk: &[u8]) -> Vec<u8> {
        let mut answers = Vec::new();
        let mut room = [0; ANSWER];
        let mut rest = chunk;
        // The room has places for any answer, so that each turn takes in a line, or all that is
        // left.
        while !rest.is_empty() {
            let fed = lent::form_feed(rest, &mut self.line, self.len, &mut room);
            self.len = fed.kept;
            answers.extend_from_slice(&room[..fed.filled]);
            rest = &rest[fed.next..];
        }
        answers
    }

    /// The answer of a last line that has no newline, with a newline; nothing where no such line
    /// has come.
    ///
    /// # Examples
    /// ```
    /// use noripliers::form::Lines;
    ///
    /// let mut lines = Lines::new();
    /// lines.feed(b"(tiles 0)");
    /// assert_eq!(lines.finish(), b"(1 0)\n");
    /// ```
    #[must_use]
    pub fn finish(self) -> Vec<u8> {
        never_refused(lend(ANSWER, |out| {
            lent::form_finish(&self.line, self.len, out)
        }))
    }
}

impl Default for Lines {
    fn default() -> Self {
        Self::new()
    }
}
