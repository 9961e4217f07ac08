//! A seeded generator of macros, of good and damaged files, and of lines.

mod bound;
mod files;
mod lines;
mod macros;
mod words;

pub use bound::{bound_case, bound_faults, bound_written, entry_case};
pub use files::{any_file, broken_file, damaged_file, good_file, padded_spelling, shuffled_file};
pub use lines::{any_budget, any_case, any_line};
pub use macros::{any_macro, any_pattern, any_table};
pub use words::any_look;

/// A file, and lines to feed in turn, each with its budget.
#[derive(Clone, Debug, PartialEq, Eq)]
pub struct Case {
    pub file: Vec<u8>,
    pub lines: Vec<(u64, Vec<u8>)>,
}

/// SplitMix64.
pub struct Random {
    state: u64,
}

impl Random {
    pub fn new(seed: u64) -> Random {
        Random { state: seed }
    }

    fn next(&mut self) -> u64 {
        self.state = self.state.wrapping_add(0x9e37_79b9_7f4a_7c15);
        let mut z = self.state;
        z = (z ^ (z >> 30)).wrapping_mul(0xbf58_476d_1ce4_e5b9);
        z = (z ^ (z >> 27)).wrapping_mul(0x94d0_49bb_1331_11eb);
        z ^ (z >> 31)
    }

    /// A number from 0 to `end` - 1.
    pub fn below(&mut self, end: usize) -> usize {
        (self.next() % end as u64) as usize
    }

    /// True in one of `n` times.
    pub fn one_in(&mut self, n: usize) -> bool {
        self.below(n) == 0
    }

    pub fn pick<'a, T>(&mut self, from: &'a [T]) -> &'a T {
        &from[self.below(from.len())]
    }
}

/// Bytes with a meaning of their own somewhere in a macro file.
const SPECIAL: &[u8] = b"$^*[]?&#(){}/\\';-~:=<,+ \"\n\t123ab";

/// Bytes over 127: letters of both cases, the signs between them, and others.
const HIGH: &[u8] = b"\xe9\xc9\xdf\xff\xc0\xd6\xd8\xde\xf6\xf8\xd7\xf7\xaa\xb5\xba\xbf\x80";
