//! 02, N1: the trace of a line.

use crate::bounds::TRACE_BYTES;
use crate::refusal::{Refusal, TRACE_FULL};

/// The lines of the passes with an occurrence, in order.
#[derive(Default)]
pub struct Trace {
    pub text: Vec<u8>,
}

impl Trace {
    /// Adds the three lines of a pass by the macro with this number, oldest 1.
    /// If they do not fit, 36.
    pub fn add(&mut self, old: &[u8], number: usize, new: &[u8]) -> Result<(), Refusal> {
        let number = number.to_string();
        let lines = [("oldline:", old), ("macro #:", number.as_bytes()), ("newline:", new)];
        for (word, text) in lines {
            self.text.extend_from_slice(word.as_bytes());
            self.text.extend_from_slice(text);
            self.text.push(b'\n');
        }
        if self.text.len() > TRACE_BYTES {
            return Err(Refusal::plain(TRACE_FULL));
        }
        Ok(())
    }
}
