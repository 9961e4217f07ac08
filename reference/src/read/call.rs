//! Reading a call, from after its `(` to after its `)`.
//! A byte that no form allowed there can have is 16; an end is 12.

use super::cursor::{no_end, Cursor, Read};
use crate::bounds::{COUNTER_END, ENTRIES};
use crate::macros::{Action, Move, Sign, Unit};
use crate::refusal::{Refusal, CALL};

/// Where a call that acts stands. A call in a pattern has a form of its own.
#[derive(Clone, Copy, PartialEq, Eq)]
pub enum Site {
    Before,
    Replacement,
    Command,
}

/// Digits taken by their value. The value stops growing far above all bounds.
#[derive(Clone, Copy, Default)]
pub struct Number {
    value: u64,
    digits: usize,
}

impl Number {
    pub fn add(&mut self, digit: u8) {
        self.digits += 1;
        self.value = self.value.saturating_mul(10).saturating_add((digit - b'0') as u64);
    }

    /// The value if there is one from 1 to `end`, else 16 at the place given.
    pub fn within(&self, end: u64, place: usize) -> Read<u64> {
        if self.digits == 0 || self.value == 0 || self.value > end {
            return wrong(place);
        }
        Ok(self.value)
    }
}

fn wrong<T>(place: usize) -> Read<T> {
    Err(Refusal::at(CALL, place))
}

/// The next byte of a call that counts: spaces do not.
fn call_byte(cursor: &mut Cursor) -> Read<(usize, u8)> {
    loop {
        let (place, byte) = cursor.take()?;
        no_end(place, byte)?;
        if byte != b' ' {
            return Ok((place, byte));
        }
    }
}

fn expect(cursor: &mut Cursor, wanted: u8) -> Read<usize> {
    match call_byte(cursor)? {
        (place, byte) if byte == wanted => Ok(place),
        (place, _) => wrong(place),
    }
}

fn letter(cursor: &mut Cursor) -> Read<u8> {
    match call_byte(cursor)? {
        (_, letter @ b'a'..=b'z') => Ok(letter),
        (place, _) => wrong(place),
    }
}

fn sign_of(byte: u8) -> Option<Sign> {
    match byte {
        b'+' => Some(Sign::Plus),
        b'-' => Some(Sign::Minus),
        _ => None,
    }
}

/// Digits, at least one, up to and with `end`; the end's place with them.
fn number(cursor: &mut Cursor, mut number: Number, end: u8) -> Read<(Number, usize)> {
    loop {
        match call_byte(cursor)? {
            (_, digit @ b'0'..=b'9') => number.add(digit),
            (place, byte) if byte == end && number.digits > 0 => return Ok((number, place)),
            (place, _) => return wrong(place),
        }
    }
}

/// A call in a pattern: `&(i)` or `#(i)`.
pub fn read_pattern_call(cursor: &mut Cursor, sign: u8) -> Read<Unit> {
    let letter = letter(cursor)?;
    expect(cursor, b')')?;
    Ok(if sign == b'&' { Unit::Entry(letter) } else { Unit::Value(letter) })
}

/// A call before a pattern, in a replacement or a command; `sign` is its `&` or `#`.
pub fn read_call(cursor: &mut Cursor, sign: u8, site: Site, tags: usize) -> Read<Action> {
    if sign == b'&' {
        stack_call(cursor, site, tags)
    } else {
        counter_call(cursor, site)
    }
}

fn stack_call(cursor: &mut Cursor, site: Site, tags: usize) -> Read<Action> {
    let (place, byte) = call_byte(cursor)?;
    if byte.is_ascii_digit() && site != Site::Before {
        return store_tag(cursor, byte, tags);
    }
    if let Some(sign) = sign_of(byte) {
        let letter = letter(cursor)?;
        let next = call_byte(cursor)?;
        return entry_or_text(cursor, site, letter, Some(Move::Before(sign)), next);
    }
    if byte.is_ascii_lowercase() {
        return after_stack_letter(cursor, site, byte);
    }
    wrong(place)
}

/// `&(n,i)` from after the first digit. Its range shows at the `)`.
fn store_tag(cursor: &mut Cursor, digit: u8, tags: usize) -> Read<Action> {
    let mut first = Number::default();
    first.add(digit);
    let (number, _) = number(cursor, first, b',')?;
    let (place, byte) = call_byte(cursor)?;
    let before = sign_of(byte);
    let letter = match (before, byte) {
        (Some(_), _) => letter(cursor)?,
        (None, b'a'..=b'z') => byte,
        _ => return wrong(place),
    };
    let (mut place, byte) = call_byte(cursor)?;
    let mut step = before.map(Move::Before);
    if let (None, Some(sign)) = (step, sign_of(byte)) {
        step = Some(Move::After(sign));
        place = expect(cursor, b')')?;
    } else if byte != b')' {
        return wrong(place);
    }
    Ok(Action::StoreTag(number.within(tags as u64, place)? as usize, letter, step))
}

fn after_stack_letter(cursor: &mut Cursor, site: Site, letter: u8) -> Read<Action> {
    let (place, byte) = call_byte(cursor)?;
    if byte == b'=' {
        let (number, place) = number(cursor, Number::default(), b')')?;
        return Ok(Action::SetPointer(letter, number.within(ENTRIES as u64, place)? as usize));
    }
    if let Some(sign) = sign_of(byte) {
        let next = call_byte(cursor)?;
        return entry_or_text(cursor, site, letter, Some(Move::After(sign)), next);
    }
    entry_or_text(cursor, site, letter, None, (place, byte))
}

/// The rest of `&(i)` or `&(i:text:)`; `next` follows the letter and its sign.
fn entry_or_text(
    cursor: &mut Cursor,
    site: Site,
    letter: u8,
    step: Option<Move>,
    next: (usize, u8),
) -> Read<Action> {
    match next {
        (_, b')') if site == Site::Replacement => Ok(Action::Entry(letter, step)),
        (_, b':') => {
            let text = call_text(cursor)?;
            expect(cursor, b')')?;
            Ok(Action::StoreText(letter, text, step))
        }
        (place, _) => wrong(place),
    }
}

/// A call's text up to and with the first `:` without `\`. Spaces count.
fn call_text(cursor: &mut Cursor) -> Read<Vec<u8>> {
    let mut text = Vec::new();
    loop {
        let (place, byte) = cursor.take()?;
        if byte == b':' {
            return Ok(text);
        }
        no_end(place, byte)?;
        if text.len() == cursor.longest {
            return wrong(place);
        }
        text.push(match byte {
            b'\\' => cursor.take_escaped()?.1,
            literal => literal,
        });
    }
}

fn counter_call(cursor: &mut Cursor, site: Site) -> Read<Action> {
    let (place, byte) = call_byte(cursor)?;
    if byte.is_ascii_lowercase() {
        return after_counter_letter(cursor, site, byte);
    }
    match sign_of(byte) {
        Some(sign) if site == Site::Replacement => {
            let letter = letter(cursor)?;
            expect(cursor, b')')?;
            Ok(Action::Value(letter, Some(Move::Before(sign))))
        }
        _ => wrong(place),
    }
}

fn after_counter_letter(cursor: &mut Cursor, site: Site, letter: u8) -> Read<Action> {
    let (place, byte) = call_byte(cursor)?;
    let numbered: Option<fn(u8, u64) -> Action> = match (byte, site) {
        (b'=', _) => Some(Action::SetCounter),
        (b',', _) => Some(Action::SetIncrement),
        (b':', Site::Replacement) => Some(Action::Divided),
        _ => None,
    };
    if let Some(numbered) = numbered {
        let (number, place) = number(cursor, Number::default(), b')')?;
        return Ok(numbered(letter, number.within(COUNTER_END, place)?));
    }
    if site != Site::Replacement {
        return wrong(place);
    }
    if byte == b')' {
        return Ok(Action::Value(letter, None));
    }
    let Some(sign) = sign_of(byte) else {
        return wrong(place);
    };
    expect(cursor, b')')?;
    Ok(Action::Value(letter, Some(Move::After(sign))))
}
