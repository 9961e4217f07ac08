//! The table that bytes are the form of. The bytes are taken apart without
//! care; they are a form exactly if the table found has that form, and 01
//! takes it exactly if some file spells each of its macros.

use super::table::{slot_form, HEADER_BYTES, SLOT_BYTES};
use crate::engine::TABLE_BYTES;
use m7_reference::macros::{
    Action, Class, Closure, Element, Item, Macro, Member, Move, Sign, Symbol, Table, Unit,
};
use m7_reference::spell::some_file_spells;

/// Nothing where 01 says 1.
pub fn table_of(bytes: &[u8]) -> Option<Table> {
    let used = bytes.chunks(SLOT_BYTES).take_while(|slot| slot[0] != 0);
    let table: Table = used.map(macro_of).collect::<Option<Table>>()?;
    let rest = &bytes[SLOT_BYTES * table.len()..];
    let zero = bytes.len() == TABLE_BYTES && rest.iter().all(|byte| *byte == 0);
    (zero && table.iter().all(some_file_spells)).then_some(table)
}

fn macro_of(slot: &[u8]) -> Option<Macro> {
    let length = |at: usize| u16::from_le_bytes([slot[at], slot[at + 1]]) as usize;
    let mut items = Items { bytes: &slot[HEADER_BYTES..] };
    let mut before = items.part(length(2))?;
    let mut pattern = items.part(length(4))?;
    let mut replacement = items.part(length(6))?;
    let mut commands = items.part(length(8))?;
    let made = Macro {
        symbol: if slot[0] == 1 { Symbol::Less } else { Symbol::Equals },
        before: all(&mut before, action)?,
        pattern: all(&mut pattern, piece)?,
        replacement: all(&mut replacement, action)?,
        commands: all(&mut commands, action)?,
    };
    (slot_form(&made) == slot).then_some(made)
}

/// What is left of some items of two bytes.
struct Items<'a> {
    bytes: &'a [u8],
}

impl<'a> Items<'a> {
    fn part(&mut self, size: usize) -> Option<Items<'a>> {
        let (part, rest) = self.bytes.split_at_checked(size)?;
        self.bytes = rest;
        Some(Items { bytes: part })
    }

    fn item(&mut self) -> Option<(u8, u8)> {
        let part = self.part(2)?;
        Some((part.bytes[0], part.bytes[1]))
    }

    fn four(&mut self) -> Option<u64> {
        let bytes = self.part(4)?.bytes;
        Some(u32::from_le_bytes(bytes.try_into().ok()?) as u64)
    }
}

fn all<T>(items: &mut Items, one: fn(&mut Items) -> Option<T>) -> Option<Vec<T>> {
    let mut found = Vec::new();
    while !items.bytes.is_empty() {
        found.push(one(items)?);
    }
    Some(found)
}

fn piece(items: &mut Items) -> Option<Item> {
    let (code, operand) = items.item()?;
    match code {
        1 => return Some(Item::Open),
        2 => return Some(Item::Close),
        3 => return Some(Item::Element(Element::LineStart)),
        4 => return Some(Item::Element(Element::LineEnd)),
        _ => {}
    }
    let closure = [Closure::None, Closure::OneOrMore, Closure::ZeroOrMore];
    let closure = *closure.get(code as usize % 4)?;
    let unit = match code / 4 {
        2 => Unit::Literal(operand),
        3 => Unit::Kind(operand),
        4 => Unit::Entry(operand),
        5 => Unit::Value(operand),
        6 => Unit::Class(Class { complement: false, members: members(items)? }),
        7 => Unit::Class(Class { complement: true, members: members(items)? }),
        _ => return None,
    };
    Some(Item::Element(Element::Unit(unit, closure)))
}

fn members(items: &mut Items) -> Option<Vec<Member>> {
    let mut found = Vec::new();
    loop {
        match items.item()? {
            (32, byte) => found.push(Member::One(byte)),
            (33, low) => found.push(Member::Range(low, items.item()?.1)),
            _ => return Some(found),
        }
    }
}

fn action(items: &mut Items) -> Option<Action> {
    let (code, operand) = items.item()?;
    let steps = [
        None,
        Some(Move::Before(Sign::Plus)),
        Some(Move::Before(Sign::Minus)),
        Some(Move::After(Sign::Plus)),
        Some(Move::After(Sign::Minus)),
    ];
    match code {
        40 => return Some(Action::Literal(operand)),
        41 => return Some(Action::Tag(operand as usize)),
        _ => {}
    }
    let step = *steps.get(code as usize % 8)?;
    Some(match code / 8 {
        6 => Action::Entry(operand, step),
        7 => Action::Value(operand, step),
        8 => Action::StoreTag(items.item()?.1 as usize, operand, step),
        9 => {
            let length = items.item()?.1 as usize;
            let text = items.part(length)?.bytes.to_vec();
            items.part(length % 2)?;
            Action::StoreText(operand, text, step)
        }
        10 => Action::SetPointer(operand, items.four()? as usize),
        11 => Action::SetCounter(operand, items.four()?),
        12 => Action::SetIncrement(operand, items.four()?),
        13 => Action::Divided(operand, items.four()?),
        _ => return None,
    })
}
