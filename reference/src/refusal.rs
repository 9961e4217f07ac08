//! 01, "Who can cause a refusal": the numbers, and a refusal with its place.

pub const BUDGET_TOO_LARGE: u8 = 4;
pub const FILE_TOO_LONG: u8 = 10;
pub const BYTE_ZERO: u8 = 11;
pub const INCOMPLETE: u8 = 12;
pub const BAD_CLASS: u8 = 13;
pub const NO_UNIT: u8 = 14;
pub const BRACES: u8 = 15;
pub const CALL: u8 = 16;
pub const NO_ELEMENT: u8 = 17;
pub const MACRO_TOO_LONG: u8 = 18;
pub const TOO_MANY_MACROS: u8 = 19;
pub const LINE_TOO_LONG: u8 = 21;
pub const LINE_BYTE: u8 = 22;
pub const CONTROL: u8 = 23;
pub const BUDGET_USED_UP: u8 = 31;
pub const NEW_LINE_TOO_LONG: u8 = 32;
pub const STORED_TAG: u8 = 33;
pub const POINTER_PAST_END: u8 = 34;
pub const COUNTER_PAST_END: u8 = 35;
pub const TRACE_FULL: u8 = 36;
pub const WORD_PATTERN: u8 = 41;
pub const LONG_ENTRY: u8 = 42;
pub const TOO_MANY_FAULTS: u8 = 61;

/// A number and its place. The place is 0 for all numbers but 10 to 19.
#[derive(Clone, Copy, Debug, PartialEq, Eq)]
pub struct Refusal {
    pub number: u8,
    pub place: usize,
}

impl Refusal {
    pub fn at(number: u8, place: usize) -> Refusal {
        Refusal { number, place }
    }

    pub fn plain(number: u8) -> Refusal {
        Refusal { number, place: 0 }
    }
}
