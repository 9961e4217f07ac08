//! Reading a class, from after its `[` to after its `]`. No skips in here.

use super::cursor::{no_end, Cursor, Read};
use crate::macros::{Class, Member};
use crate::refusal::{Refusal, BAD_CLASS};

pub fn read_class(cursor: &mut Cursor) -> Read<Class> {
    let complement = cursor.peek_raw(0) == Some(b'~');
    if complement {
        cursor.take_raw()?;
    }
    let mut members = Vec::new();
    while cursor.peek_raw(0) != Some(b']') {
        members.push(read_member(cursor)?);
    }
    let (place, _) = cursor.take_raw()?;
    if members.is_empty() {
        return Err(Refusal::at(BAD_CLASS, place));
    }
    Ok(Class { complement, members })
}

/// A byte alone, or a range: a raw `-` follows and then no raw `]`.
fn read_member(cursor: &mut Cursor) -> Read<Member> {
    let (_, first) = member_byte(cursor)?;
    if cursor.peek_raw(0) != Some(b'-') || cursor.peek_raw(1) == Some(b']') {
        return Ok(Member::One(first));
    }
    cursor.take_raw()?;
    let (place, second) = member_byte(cursor)?;
    if !is_range(first, second) {
        return Err(Refusal::at(BAD_CLASS, place));
    }
    Ok(Member::Range(first, second))
}

/// The byte and its place, which is that after the `\` if escaped.
fn member_byte(cursor: &mut Cursor) -> Read<(usize, u8)> {
    let (place, byte) = cursor.take_raw()?;
    if byte == b'\\' {
        return cursor.take_escaped();
    }
    no_end(place, byte)?;
    Ok((place, byte))
}

fn is_range(first: u8, second: u8) -> bool {
    let both = |kind: fn(&u8) -> bool| kind(&first) && kind(&second);
    let alike =
        both(u8::is_ascii_lowercase) || both(u8::is_ascii_uppercase) || both(u8::is_ascii_digit);
    alike && first <= second
}
