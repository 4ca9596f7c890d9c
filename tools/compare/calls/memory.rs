//! Memory that is lent to the proved library, and what comes back through its pointers.
use crate::sample::Random;

/// Places for an answer, or a few more, full of numbers that change from call to call.
pub fn junk<T>(random: &mut Random, places: usize, as_entry: fn(u64) -> T) -> Vec<T> {
    let places = places + random.below(4) as usize;
    (0..places).map(|_| as_entry(random.next())).collect()
}

/// The refusal's number, the count, and all of the memory as the call left it.
pub type Lent<T> = (u8, u64, Vec<T>);

/// A call that writes a list into lent memory.
pub fn lend<T: Copy>(junk: &[T], call: impl FnOnce(*mut T, usize, &mut u64) -> u8) -> Lent<T> {
    let mut memory = junk.to_vec();
    let mut count = u64::MAX;
    let number = call(memory.as_mut_ptr(), memory.len(), &mut count);
    (number, count, memory)
}

/// What is expected: the entries at the front, and behind them what was there.
pub fn written<T: Copy>(junk: &[T], entries: &[T]) -> Lent<T> {
    (0, entries.len() as u64, [entries, &junk[entries.len()..]].concat())
}

/// What is expected of a refused call.
pub fn refused<T: Copy>(number: u8, junk: &[T]) -> Lent<T> {
    (number, 0, junk.to_vec())
}

/// A tile, or the number of the refusal and zeros.
pub type Placed = (u8, (u32, u32, u8));

pub fn placed(call: impl FnOnce(&mut u32, &mut u32, &mut u8) -> u8) -> Placed {
    let (mut x, mut y, mut z) = (u32::MAX, u32::MAX, u8::MAX);
    (call(&mut x, &mut y, &mut z), (x, y, z))
}

/// One value behind a pointer, which is set to something else before.
pub fn value<T>(mut before: T, call: impl FnOnce(&mut T) -> u8) -> (u8, T) {
    let number = call(&mut before);
    (number, before)
}
