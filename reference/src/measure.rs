//! 02, N8: what a macro file will take, without its table.

use crate::bounds::ENTRY_BYTES;
use crate::read::Reader;
use crate::refusal::Refusal;
use crate::write::{end_of_line, written_macro};

/// The number of macros, the most elements and the most tags of a macro, and
/// the bytes of the file written out, or why it cannot be.
#[derive(Clone, Copy, Debug, PartialEq, Eq)]
pub struct Plan {
    pub macros: usize,
    pub elements: usize,
    pub tags: usize,
    pub bytes: Result<usize, Refusal>,
}

/// One macro at a time; a file that reading refuses gets its refusal.
pub fn measure(file: &[u8]) -> Result<Plan, Refusal> {
    let mut plan = Plan { macros: 0, elements: 0, tags: 0, bytes: Ok(0) };
    for read in Reader::new(file, 0, ENTRY_BYTES)? {
        let read = read?;
        plan.macros += 1;
        plan.elements = plan.elements.max(read.elements());
        plan.tags = plan.tags.max(read.tags());
        plan.bytes = plan.bytes.and_then(|start| end_of_line(start, written_macro(&read).len()));
    }
    Ok(plan)
}
