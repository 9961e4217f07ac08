//! 01, part 2: reading a macro file.

mod call;
mod class;
mod cursor;
mod pattern;
mod replacement;

use crate::bounds::{ENTRY_BYTES, FILE_BYTES, MACROS, MACRO_BYTES};
use crate::macros::{tags, Action, Macro, Symbol, Table};
use crate::refusal::{
    Refusal, BYTE_ZERO, FILE_TOO_LONG, INCOMPLETE, MACRO_TOO_LONG, TOO_MANY_MACROS,
};
use call::Site;
use cursor::{Cursor, Read};

/// The table that a macro file spells.
pub fn read_file(file: &[u8]) -> Read<Table> {
    read_after(file, 0, ENTRY_BYTES)
}

/// The macros that `file` spells, where a table already has `before` macros
/// and a call's text has at most `longest` bytes.
pub fn read_after(file: &[u8], before: usize, longest: usize) -> Read<Table> {
    Reader::new(file, before, longest)?.collect()
}

/// The macros of a file, one after the other, or the fault that ends them.
pub struct Reader<'a> {
    file: &'a [u8],
    cursor: Cursor<'a>,
    /// The macros before the next one.
    before: usize,
}

impl<'a> Reader<'a> {
    pub fn new(file: &'a [u8], before: usize, longest: usize) -> Read<Reader<'a>> {
        whole_file(file)?;
        Ok(Reader { file, cursor: Cursor::new(file, longest), before })
    }

    fn next_macro(&mut self) -> Read<Option<Macro>> {
        let Some(start) = next_start(&mut self.cursor)? else {
            return Ok(None);
        };
        if self.before == MACROS {
            return Err(Refusal::at(TOO_MANY_MACROS, start.place));
        }
        let read = bounded_macro(self.file, &mut self.cursor, start)?;
        self.before += 1;
        Ok(Some(read))
    }

    /// Goes on afresh behind the first `;` at or after a place, if there is one.
    pub fn resume(&mut self, place: usize) -> bool {
        let end = self.file[place..].iter().position(|byte| *byte == b';');
        if let Some(end) = end {
            self.cursor.go_to(place + end + 1);
        }
        end.is_some()
    }
}

/// After a fault nothing is to be asked before `resume`.
impl Iterator for Reader<'_> {
    type Item = Read<Macro>;

    fn next(&mut self) -> Option<Read<Macro>> {
        self.next_macro().transpose()
    }
}

/// 10, then 11, before anything else is looked at.
fn whole_file(file: &[u8]) -> Read<()> {
    if file.len() > FILE_BYTES {
        return Err(Refusal::at(FILE_TOO_LONG, FILE_BYTES));
    }
    match file.iter().position(|byte| *byte == 0) {
        Some(place) => Err(Refusal::at(BYTE_ZERO, place)),
        None => Ok(()),
    }
}

/// What a macro begins with: its first quote, or the `&(` or `#(` of a call
/// before its pattern. The place is that of the quote, the `&` or the `#`.
struct Start {
    place: usize,
    byte: u8,
}

/// Takes the start of the next macro. Before it only `'`, `/`, `&(` and `#(`
/// count.
fn next_start(cursor: &mut Cursor) -> Read<Option<Start>> {
    while cursor.peek()?.is_some() {
        let (place, byte) = cursor.take_raw()?;
        let begins = match byte {
            b'\'' => true,
            b'&' | b'#' => cursor.take_if(b'(')?,
            _ => false,
        };
        if begins {
            return Ok(Some(Start { place, byte }));
        }
    }
    Ok(None)
}

/// Reads a macro and then looks at its 513th byte, if the file has one:
/// 18 there, unless the macro ended or another fault showed by then.
fn bounded_macro(file: &[u8], cursor: &mut Cursor, start: Start) -> Read<Macro> {
    let too_long = start.place + MACRO_BYTES;
    let answer = read_macro(cursor, start.byte);
    let shown_by_then = match &answer {
        Ok(_) => cursor.place() <= too_long,
        Err(refusal) => refusal.place <= too_long,
    };
    if shown_by_then || too_long >= file.len() {
        return answer;
    }
    Err(Refusal::at(MACRO_TOO_LONG, too_long))
}

/// Reads a macro from after its start, which has this byte, to after its `;`.
fn read_macro(cursor: &mut Cursor, start: u8) -> Read<Macro> {
    let mut before = Vec::new();
    if start != b'\'' {
        before.push(call::read_call(cursor, start, Site::Before, 0)?);
        read_calls(cursor, Site::Before, 0, &mut before)?;
    }
    let pattern = pattern::read_pattern(cursor)?;
    let tags = tags(&pattern);
    let symbol = read_symbol(cursor)?;
    find_replacement(cursor)?;
    let replacement = replacement::read_replacement(cursor, tags)?;
    let mut commands = Vec::new();
    read_calls(cursor, Site::Command, tags, &mut commands)?;
    Ok(Macro { before, pattern, symbol, replacement, commands })
}

fn read_symbol(cursor: &mut Cursor) -> Read<Symbol> {
    loop {
        match cursor.take()? {
            (_, b'=') => return Ok(Symbol::Equals),
            (_, b'<') => return Ok(Symbol::Less),
            (place, b'\'' | b';') => return Err(Refusal::at(INCOMPLETE, place)),
            _ => {}
        }
    }
}

/// Takes the replacement's first quote.
fn find_replacement(cursor: &mut Cursor) -> Read<()> {
    loop {
        match cursor.take()? {
            (_, b'\'') => return Ok(()),
            (place, b';') => return Err(Refusal::at(INCOMPLETE, place)),
            _ => {}
        }
    }
}

/// Reads calls up to and with what ends them: before a pattern its quote, of
/// commands the `;`. The other of the two is 12.
fn read_calls(cursor: &mut Cursor, site: Site, tags: usize, calls: &mut Vec<Action>) -> Read<()> {
    let end = if site == Site::Before { b'\'' } else { b';' };
    loop {
        match cursor.take()? {
            (_, byte) if byte == end => return Ok(()),
            (place, b'\'' | b';') => return Err(Refusal::at(INCOMPLETE, place)),
            (_, sign @ (b'&' | b'#')) if cursor.take_if(b'(')? => {
                calls.push(call::read_call(cursor, sign, site, tags)?);
            }
            _ => {}
        }
    }
}
