//! A table: 96 slots of 1,024 bytes, oldest macro first, unused bytes zero.

use crate::engine::TABLE_BYTES;
use m7_reference::macros::{
    Action, Class, Closure, Element, Item, Macro, Member, Move, Sign, Symbol, Unit,
};

pub const SLOT_BYTES: usize = 1024;
/// Symbol, tags and four lengths.
pub const HEADER_BYTES: usize = 10;

/// Puts a table's form over whatever `bytes` held.
pub fn table_form(table: &[Macro], bytes: &mut [u8]) {
    assert_eq!(bytes.len(), TABLE_BYTES);
    for (made, slot) in table.iter().zip(bytes.chunks_mut(SLOT_BYTES)) {
        slot.copy_from_slice(&slot_form(made));
    }
    bytes[SLOT_BYTES * table.len()..].fill(0);
}

/// Symbol, tags, the lengths of the four parts, the parts, zeros.
pub fn slot_form(made: &Macro) -> Vec<u8> {
    let before: Vec<u8> = made.before.iter().flat_map(action_items).collect();
    let pattern: Vec<u8> = made.pattern.iter().flat_map(piece_items).collect();
    let replacement: Vec<u8> = made.replacement.iter().flat_map(action_items).collect();
    let commands: Vec<u8> = made.commands.iter().flat_map(action_items).collect();
    let symbol = match made.symbol {
        Symbol::Less => 1,
        Symbol::Equals => 2,
    };
    let mut slot = vec![symbol, made.tags() as u8];
    for part in [&before, &pattern, &replacement, &commands] {
        slot.extend((part.len() as u16).to_le_bytes());
    }
    slot.extend([before, pattern, replacement, commands].concat());
    slot.resize(SLOT_BYTES.max(slot.len()), 0);
    slot
}

fn piece_items(item: &Item) -> Vec<u8> {
    match item {
        Item::Open => vec![1, 0],
        Item::Close => vec![2, 0],
        Item::Element(Element::LineStart) => vec![3, 0],
        Item::Element(Element::LineEnd) => vec![4, 0],
        Item::Element(Element::Unit(unit, closure)) => unit_items(unit, *closure),
    }
}

fn unit_items(unit: &Unit, closure: Closure) -> Vec<u8> {
    let closure = match closure {
        Closure::None => 0,
        Closure::OneOrMore => 1,
        Closure::ZeroOrMore => 2,
    };
    match unit {
        Unit::Literal(byte) => vec![4 * 2 + closure, *byte],
        Unit::Kind(n) => vec![4 * 3 + closure, *n],
        Unit::Entry(letter) => vec![4 * 4 + closure, *letter],
        Unit::Value(letter) => vec![4 * 5 + closure, *letter],
        Unit::Class(class) => class_items(class, closure),
    }
}

fn class_items(class: &Class, closure: u8) -> Vec<u8> {
    let mut items = vec![4 * if class.complement { 7 } else { 6 } + closure, 0];
    for member in &class.members {
        match *member {
            Member::One(byte) => items.extend([32, byte]),
            Member::Range(low, high) => items.extend([33, low, 34, high]),
        }
    }
    items.extend([35, 0]);
    items
}

fn move_code(step: Option<Move>) -> u8 {
    match step {
        None => 0,
        Some(Move::Before(Sign::Plus)) => 1,
        Some(Move::Before(Sign::Minus)) => 2,
        Some(Move::After(Sign::Plus)) => 3,
        Some(Move::After(Sign::Minus)) => 4,
    }
}

fn action_items(action: &Action) -> Vec<u8> {
    let set = |code: u8, letter: u8, n: u64| {
        let mut items = vec![code, letter];
        items.extend((n as u32).to_le_bytes());
        items
    };
    match action {
        Action::Literal(byte) => vec![40, *byte],
        Action::Tag(n) => vec![41, *n as u8],
        Action::Entry(letter, step) => vec![48 + move_code(*step), *letter],
        Action::Value(letter, step) => vec![56 + move_code(*step), *letter],
        Action::StoreTag(n, letter, step) => vec![64 + move_code(*step), *letter, 42, *n as u8],
        Action::StoreText(letter, text, step) => {
            let mut items = vec![72 + move_code(*step), *letter, 43, text.len() as u8];
            items.extend_from_slice(text);
            items.resize(items.len() + text.len() % 2, 0);
            items
        }
        Action::SetPointer(letter, n) => set(80, *letter, *n as u64),
        Action::SetCounter(letter, n) => set(88, *letter, *n),
        Action::SetIncrement(letter, n) => set(96, *letter, *n),
        Action::Divided(letter, n) => set(104, *letter, *n),
    }
}
