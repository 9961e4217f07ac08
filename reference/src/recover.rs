//! 02, N11: reading past a lost quote.

use crate::bounds::{ENTRY_BYTES, FAULTS};
use crate::macros::Table;
use crate::read::Reader;
use crate::refusal::{Refusal, INCOMPLETE, MACRO_TOO_LONG, TOO_MANY_FAULTS};

/// The macros kept, and the faults in file order.
#[derive(Clone, Debug, Default, PartialEq, Eq)]
pub struct Recovered {
    pub table: Table,
    pub faults: Vec<Refusal>,
}

/// Where reading shows 12 to 18, the macro begun is left out and reading goes
/// on behind the first `;` at or after that byte.
pub fn recover(file: &[u8]) -> Result<Recovered, Refusal> {
    let mut reader = Reader::new(file, 0, ENTRY_BYTES)?;
    let mut recovered = Recovered::default();
    while let Some(read) = reader.next() {
        match read {
            Ok(kept) => recovered.table.push(kept),
            Err(fault) => {
                recovered.add_fault(fault)?;
                if !reader.resume(fault.place) {
                    break;
                }
            }
        }
    }
    Ok(recovered)
}

impl Recovered {
    /// Other numbers refuse the file; so does the 257th fault, with 61.
    fn add_fault(&mut self, fault: Refusal) -> Result<(), Refusal> {
        if !(INCOMPLETE..=MACRO_TOO_LONG).contains(&fault.number) {
            return Err(fault);
        }
        if self.faults.len() == FAULTS {
            return Err(Refusal::plain(TOO_MANY_FAULTS));
        }
        self.faults.push(fault);
        Ok(())
    }
}
