//! Reading a pattern, from after its first quote to after its last.

use super::call::read_pattern_call;
use super::class::read_class;
use super::cursor::{no_end, Cursor, Read};
use crate::bounds::TAGS;
use crate::macros::{Closure, Element, Item, Unit};
use crate::refusal::{Refusal, BRACES, NO_ELEMENT, NO_UNIT};

#[derive(Default)]
struct Pattern {
    items: Vec<Item>,
    open: usize,
    tags: usize,
}

pub fn read_pattern(cursor: &mut Cursor) -> Read<Vec<Item>> {
    let mut pattern = Pattern::default();
    loop {
        let (place, byte) = cursor.take()?;
        if byte == b'\'' {
            return pattern.close(place);
        }
        no_end(place, byte)?;
        match byte {
            b'{' => pattern.open_tag(place)?,
            b'}' => pattern.close_tag(place)?,
            b'*' => pattern.add_closure(place, cursor)?,
            b'^' => pattern.items.push(Item::Element(Element::LineStart)),
            b'$' => pattern.items.push(Item::Element(Element::LineEnd)),
            _ => pattern.add_unit(read_unit(cursor, byte)?),
        }
    }
}

impl Pattern {
    /// At the closing quote: 15 before 17.
    fn close(self, place: usize) -> Read<Vec<Item>> {
        if self.open > 0 {
            return Err(Refusal::at(BRACES, place));
        }
        if !self.items.iter().any(|item| matches!(item, Item::Element(_))) {
            return Err(Refusal::at(NO_ELEMENT, place));
        }
        Ok(self.items)
    }

    fn open_tag(&mut self, place: usize) -> Read<()> {
        if self.tags == TAGS {
            return Err(Refusal::at(BRACES, place));
        }
        self.tags += 1;
        self.open += 1;
        self.items.push(Item::Open);
        Ok(())
    }

    fn close_tag(&mut self, place: usize) -> Read<()> {
        if self.open == 0 {
            return Err(Refusal::at(BRACES, place));
        }
        self.open -= 1;
        self.items.push(Item::Close);
        Ok(())
    }

    fn add_unit(&mut self, unit: Unit) {
        self.items.push(Item::Element(Element::Unit(unit, Closure::None)));
    }

    /// The item just before must be a unit without a closure, else 14.
    /// A `-` that follows always belongs to the closure.
    fn add_closure(&mut self, place: usize, cursor: &mut Cursor) -> Read<()> {
        let Some(Item::Element(Element::Unit(_, closure @ Closure::None))) = self.items.last_mut()
        else {
            return Err(Refusal::at(NO_UNIT, place));
        };
        *closure = if cursor.take_if(b'-')? { Closure::ZeroOrMore } else { Closure::OneOrMore };
        Ok(())
    }
}

fn read_unit(cursor: &mut Cursor, byte: u8) -> Read<Unit> {
    match byte {
        b'\\' => Ok(Unit::Literal(cursor.take_escaped()?.1)),
        b'[' => Ok(Unit::Class(read_class(cursor)?)),
        b'?' => read_kind(cursor),
        b'&' | b'#' if cursor.take_if(b'(')? => read_pattern_call(cursor, byte),
        literal => Ok(Unit::Literal(literal)),
    }
}

/// `?` with 1 to 6, else a literal `?`.
fn read_kind(cursor: &mut Cursor) -> Read<Unit> {
    match cursor.peek()? {
        Some(digit @ b'1'..=b'6') => {
            cursor.take_raw()?;
            Ok(Unit::Kind(digit - b'0'))
        }
        _ => Ok(Unit::Literal(b'?')),
    }
}
