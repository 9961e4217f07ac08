//! Reading a replacement, from after its first quote to after its last.

use super::call::{read_call, Number, Site};
use super::cursor::{no_end, Cursor, Read};
use crate::macros::Action;
use crate::refusal::{Refusal, CALL, INCOMPLETE};

pub fn read_replacement(cursor: &mut Cursor, tags: usize) -> Read<Vec<Action>> {
    let mut actions = Vec::new();
    loop {
        let (place, byte) = cursor.take()?;
        if byte == b'\'' {
            return Ok(actions);
        }
        no_end(place, byte)?;
        actions.push(match byte {
            b'\\' => Action::Literal(cursor.take_escaped()?.1),
            b'{' => read_tag(cursor, tags)?,
            b'&' | b'#' if cursor.take_if(b'(')? => {
                read_call(cursor, byte, Site::Replacement, tags)?
            }
            literal => Action::Literal(literal),
        });
    }
}

/// `{n}` from after its `{`. A quote in it is 16, `;` and line feed are 12.
fn read_tag(cursor: &mut Cursor, tags: usize) -> Read<Action> {
    let mut number = Number::default();
    loop {
        match cursor.take()? {
            (_, digit @ b'0'..=b'9') => number.add(digit),
            (place, b'}') => return Ok(Action::Tag(number.within(tags as u64, place)? as usize)),
            (place, b';' | b'\n') => return Err(Refusal::at(INCOMPLETE, place)),
            (place, _) => return Err(Refusal::at(CALL, place)),
        }
    }
}
