//! 01, "Bounds and the fresh state", and the bounds of 02.

pub const FILE_BYTES: usize = 32_768;
pub const MACROS: usize = 96;
pub const MACRO_BYTES: usize = 512;
pub const TAGS: usize = 99;
pub const LINE_BYTES: usize = 1_054;
pub const LETTERS: usize = 26;
pub const ENTRIES: usize = 20;
/// 02, N6: an entry, and the text in a call.
pub const ENTRY_BYTES: usize = 100;
/// The same of the old engine.
pub const OLD_ENTRY_BYTES: usize = 50;
pub const COUNTER_END: u64 = 999_999_999;
pub const BUDGET_END: u64 = 1_000_000;
pub const TRACE_BYTES: usize = 65_536;
pub const FAULTS: usize = 256;

/// 01, part 8: the budget of the program.
pub const PROGRAM_BUDGET: u64 = 10_000;
