//! 01, part 7: writing a table out.

use crate::bounds::{FILE_BYTES, MACRO_BYTES};
use crate::macros::{Action, Class, Item, Macro};
use crate::refusal::{Refusal, FILE_TOO_LONG, MACRO_TOO_LONG};
use crate::spelling::{spell_macro, Rule};

struct Written;

impl Rule for Written {
    fn in_pattern(&self, _: &[Item], _: usize, byte: u8) -> bool {
        b"$^*[?&#{}/\\';-".contains(&byte)
    }

    fn in_class(&self, _: &Class, _: usize, byte: u8) -> bool {
        b"]-~\\';".contains(&byte)
    }

    fn in_replacement(&self, _: &[Action], _: usize, byte: u8) -> bool {
        self.in_text(byte)
    }

    fn in_text(&self, byte: u8) -> bool {
        b"{&#/\\';:".contains(&byte)
    }

    fn names_tab(&self) -> bool {
        true
    }
}

/// A macro's written form, without the line feed after it.
pub fn written_macro(written: &Macro) -> Vec<u8> {
    spell_macro(&Written, written)
}

/// The file, each macro on a line; or 18 or 10 at the first byte too many.
pub fn write_table(table: &[Macro]) -> Result<Vec<u8>, Refusal> {
    let mut file = Vec::new();
    for written in table {
        let spelled = written_macro(written);
        end_of_line(file.len(), spelled.len())?;
        file.extend(spelled);
        file.push(b'\n');
    }
    Ok(file)
}

/// The end of the line of a macro of that length, if the line begins there.
pub fn end_of_line(start: usize, length: usize) -> Result<usize, Refusal> {
    if length > MACRO_BYTES && start + MACRO_BYTES <= FILE_BYTES {
        return Err(Refusal::at(MACRO_TOO_LONG, start + MACRO_BYTES));
    }
    let end = start + length + 1;
    if end > FILE_BYTES {
        return Err(Refusal::at(FILE_TOO_LONG, FILE_BYTES));
    }
    Ok(end)
}
