//! What comes back from a call: its number as a result, its values, and the list in memory that was
//! lent for it.

use crate::{Error, Tile};

/// The number that a call returns.
pub(crate) fn accepted(number: u8) -> Result<(), Error> {
    if number == 0 {
        Ok(())
    } else {
        Err(Error::of(number))
    }
}

/// The values that a call gives through pointers.
pub(crate) fn value<T: Default>(call: impl FnOnce(&mut T) -> u8) -> Result<T, Error> {
    let mut value = T::default();
    accepted(call(&mut value))?;
    Ok(value)
}

/// The yes or no that a call gives.
pub(crate) fn told(call: impl FnOnce(&mut u8) -> u8) -> Result<bool, Error> {
    value(call).map(|told| told != 0)
}

/// How many places a call has filled.
pub(crate) fn count(call: impl FnOnce(&mut u64) -> u8) -> Result<usize, Error> {
    value(call).map(|count| count as usize)
}

/// The answer of a call that cannot be refused, since what goes in has been accepted before.
pub(crate) fn never_refused<T>(answer: Result<T, Error>) -> T {
    answer
        .unwrap_or_else(|error| panic!("the archive refuses what it has accepted before: {error}"))
}

/// The list that a call writes, for which it is lent so many places.
pub(crate) fn lend<T: Clone + Default>(
    places: usize,
    call: impl FnOnce(&mut [T]) -> Result<usize, Error>,
) -> Result<Vec<T>, Error> {
    let mut memory = Vec::new();
    memory
        .try_reserve_exact(places)
        .map_err(|_| Error::Memory)?;
    memory.resize(places, T::default());
    let count = call(&mut memory)?;
    memory.truncate(count);
    memory.shrink_to_fit();
    Ok(memory)
}

/// The entries of tiles, for a call on a list.
pub(crate) fn entries(tiles: &[Tile]) -> Vec<u64> {
    tiles.iter().map(Tile::entry).collect()
}

/// The tiles of entries that a call has given.
pub(crate) fn tiles(entries: &[u64]) -> Vec<Tile> {
    entries
        .iter()
        .map(|&entry| never_refused(Tile::from_entry(entry)))
        .collect()
}
