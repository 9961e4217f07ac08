//! The place reached in a macro file, and the bytes that count from there.

use crate::refusal::{Refusal, INCOMPLETE};

pub type Read<T> = Result<T, Refusal>;

pub struct Cursor<'a> {
    file: &'a [u8],
    place: usize,
    /// The bytes that a call's text may have.
    pub longest: usize,
}

impl<'a> Cursor<'a> {
    pub fn new(file: &'a [u8], longest: usize) -> Cursor<'a> {
        Cursor { file, place: 0, longest }
    }

    /// Goes to a place of the file.
    pub fn go_to(&mut self, place: usize) {
        self.place = place;
    }

    pub fn place(&self) -> usize {
        self.place
    }

    /// The byte at the place, skips not looked for.
    pub fn peek_raw(&self, ahead: usize) -> Option<u8> {
        self.file.get(self.place + ahead).copied()
    }

    /// Takes one byte, skips not looked for; 12 at the file's end.
    pub fn take_raw(&mut self) -> Read<(usize, u8)> {
        let place = self.place;
        let byte = self.peek_raw(0).ok_or(Refusal::at(INCOMPLETE, place))?;
        self.place += 1;
        Ok((place, byte))
    }

    /// The next byte that counts, past any skips; none at the file's end.
    pub fn peek(&mut self) -> Read<Option<u8>> {
        while self.peek_raw(0) == Some(b'/') {
            self.place += 1;
            while self.take_raw()?.1 != b'/' {}
        }
        Ok(self.peek_raw(0))
    }

    /// Takes the next byte that counts; 12 at the file's end.
    pub fn take(&mut self) -> Read<(usize, u8)> {
        self.peek()?;
        self.take_raw()
    }

    /// Takes the next byte that counts if it is the one given.
    pub fn take_if(&mut self, wanted: u8) -> Read<bool> {
        let found = self.peek()? == Some(wanted);
        if found {
            self.take_raw()?;
        }
        Ok(found)
    }

    /// Takes the byte after a `\`, with its place. It never begins a skip.
    pub fn take_escaped(&mut self) -> Read<(usize, u8)> {
        let (place, byte) = self.take_raw()?;
        let literal = match byte {
            b'n' => b'\n',
            b't' => b'\t',
            other => other,
        };
        Ok((place, literal))
    }
}

/// 12 at a raw quote, `;` or line feed, none of which an open part may hold.
pub fn no_end(place: usize, byte: u8) -> Read<()> {
    match byte {
        b'\'' | b';' | b'\n' => Err(Refusal::at(INCOMPLETE, place)),
        _ => Ok(()),
    }
}
