//! Makes a call with what is behind its pointers filled before, compares all of it, and notes the
//! number that came back.
use std::collections::{BTreeMap, BTreeSet};
use std::fmt::Debug;

/// Places behind the lent memory, which no call may write to.
pub const BEHIND: usize = 3;

/// A number, or several, that can be filled with something before a call.
pub trait Fill: Clone + Debug + Default + PartialEq {
    fn fill(seed: u64) -> Self;
}

impl Fill for u8 {
    fn fill(seed: u64) -> Self {
        (seed >> 32) as u8 | 1
    }
}

impl Fill for u32 {
    fn fill(seed: u64) -> Self {
        (seed >> 16) as u32 | 1
    }
}

impl Fill for u64 {
    fn fill(seed: u64) -> Self {
        seed | 1
    }
}

impl Fill for f64 {
    fn fill(seed: u64) -> Self {
        seed as f64 + 0.5
    }
}

impl<const N: usize> Fill for [u8; N]
where
    Self: Default,
{
    fn fill(seed: u64) -> Self {
        [u8::fill(seed); N]
    }
}

impl Fill for () {
    fn fill(_: u64) {}
}

macro_rules! fill_several {
    ($($name:ident)*) => {
        impl<$($name: Fill),*> Fill for ($($name,)*) {
            fn fill(seed: u64) -> Self {
                ($($name::fill(seed),)*)
            }
        }
    };
}

fill_several!(A B);
fill_several!(A B C);
fill_several!(A B C D);
fill_several!(A B C D E);
fill_several!(A B C D E F G H);
fill_several!(A B C D E F G H I);

/// The numbers that each function gave, 0 among them where it accepted.
#[derive(Default)]
pub struct Tally {
    pub given: BTreeMap<&'static str, BTreeSet<u8>>,
}

impl Tally {
    /// Makes a call twice, with memory and values that are filled in two ways, and compares number,
    /// values and memory with what `expected` says of the memory before.
    pub fn call<T: Fill, V: Fill>(
        &mut self,
        name: &'static str,
        places: usize,
        call: impl Fn(&mut [T], &mut V) -> u8,
        expected: impl Fn(&[T]) -> (u8, V, Vec<T>),
    ) {
        for seed in [0x5bd1_e995_9e37_79b9, 0xfedc_ba98_7654_3210] {
            let before: Vec<T> = (0..places as u64)
                .map(|i| T::fill(i.wrapping_add(1).wrapping_mul(seed)))
                .collect();
            let mut memory = before.clone();
            let mut values = V::fill(seed);
            let number = call(&mut memory, &mut values);
            assert_eq!((number, values, memory), expected(&before), "{name}");
            self.given.entry(name).or_default().insert(number);
        }
    }

    /// A call that gives values.
    pub fn gives<V: Fill>(&mut self, name: &'static str, call: impl Fn(&mut V) -> u8, values: V) {
        self.call(
            name,
            0,
            |_: &mut [u8], v| call(v),
            |_| (0, values.clone(), vec![]),
        );
    }

    /// A call that is refused, and gives zeros.
    pub fn refuses<V: Fill>(
        &mut self,
        name: &'static str,
        call: impl Fn(&mut V) -> u8,
        number: u8,
    ) {
        self.call(
            name,
            0,
            |_: &mut [u8], v| call(v),
            |_| (number, V::default(), vec![]),
        );
    }

    /// A call that takes its values where it gives them: it turns them into others, or is refused by
    /// a number. They then stay as they were, since zeros are a state too, the first one.
    pub fn turns<V: Fill>(
        &mut self,
        name: &'static str,
        call: impl Fn(&mut V) -> u8,
        before: V,
        after: Result<V, u8>,
    ) {
        let (number, after) = match after {
            Ok(after) => (0, after),
            Err(number) => (number, before.clone()),
        };
        self.call(
            name,
            0,
            |_: &mut [u8], v| {
                *v = before.clone();
                call(v)
            },
            |_| (number, after.clone(), vec![]),
        );
    }

    /// A call that writes `answer` into so many places, sets those behind it to 0 up to `zeroed`
    /// places, gives `values`, and changes nothing else.
    pub fn writes<T: Fill, V: Fill>(
        &mut self,
        name: &'static str,
        places: usize,
        call: impl Fn(*mut T, usize, &mut V) -> u8,
        (answer, zeroed, values): (&[T], usize, V),
    ) {
        let written = |before: &[T]| {
            let mut memory = answer.to_vec();
            memory.resize(zeroed.max(answer.len()), T::default());
            memory.extend_from_slice(&before[memory.len()..]);
            (0, values.clone(), memory)
        };
        self.call(
            name,
            places + BEHIND,
            |memory, v| call(memory.as_mut_ptr(), places, v),
            written,
        );
    }

    /// A call that is refused, gives zeros and writes nothing.
    pub fn leaves<T: Fill, V: Fill>(
        &mut self,
        name: &'static str,
        places: usize,
        call: impl Fn(*mut T, usize, &mut V) -> u8,
        number: u8,
    ) {
        let same = |before: &[T]| (number, V::default(), before.to_vec());
        self.call(
            name,
            places + BEHIND,
            |memory, v| call(memory.as_mut_ptr(), places, v),
            same,
        );
    }

    /// A call that writes a list and gives its count: with exactly as many places as it needs, with
    /// more, and refused with one less.
    pub fn lists<T: Fill>(
        &mut self,
        name: &'static str,
        call: impl Fn(*mut T, usize, &mut u64) -> u8,
        answer: &[T],
        needs: usize,
    ) {
        let count = answer.len() as u64;
        self.writes(name, needs, &call, (answer, needs, count));
        self.writes(name, needs + 5, &call, (answer, needs, count));
        if needs > 0 {
            self.leaves(name, needs - 1, &call, 12);
            self.leaves(name, 0, &call, 12);
        }
    }
}
