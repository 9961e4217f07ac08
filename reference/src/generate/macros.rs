//! Macros of a few elements and actions.

use super::{Random, HIGH, SPECIAL};
use crate::macros::{
    Action, Class, Closure, Element, Item, Macro, Member, Move, Sign, Symbol, Unit,
};

const PLAIN: &[u8] = b"aaabb1-";
const LETTERS: &[u8] = b"aabz";

/// A macro. With `odd`, its literals are often special bytes.
pub fn any_macro(random: &mut Random, odd: bool) -> Macro {
    let pattern = any_pattern(random, odd);
    let tags = crate::macros::tags(&pattern);
    let length = random.below(5);
    let replacement = (0..length).map(|_| any_action(random, odd, tags)).collect();
    let length = if random.one_in(3) { 1 + random.below(2) } else { 0 };
    let commands = (0..length).map(|_| any_command(random, odd, tags)).collect();
    let symbol = if random.one_in(2) { Symbol::Equals } else { Symbol::Less };
    let length = if random.one_in(5) { 1 + random.below(2) } else { 0 };
    let before = (0..length).map(|_| any_command(random, odd, 0)).collect();
    Macro { before, pattern, symbol, replacement, commands }
}

/// So many macros, in one of 8 tables short ones that meet each other's calls.
pub fn any_table(random: &mut Random, odd: bool, count: usize) -> Vec<Macro> {
    let meeting = random.one_in(8);
    let one = |random: &mut Random| match meeting {
        true => meeting_macro(random),
        false => any_macro(random, odd),
    };
    (0..count).map(|_| one(random)).collect()
}

/// A short macro about stack or counter `a`: what one sets before its pattern
/// another has in its pattern, so that it matters when each is tried.
fn meeting_macro(random: &mut Random) -> Macro {
    let literal = |random: &mut Random| Unit::Literal(*random.pick(b"aab1"));
    let called = if random.one_in(4) { Unit::Value(b'a') } else { Unit::Entry(b'a') };
    let units = match random.below(4) {
        0 => vec![literal(random)],
        1 => vec![literal(random), called],
        _ => vec![called],
    };
    let element = |unit| Item::Element(Element::Unit(unit, Closure::None));
    let pattern = units.into_iter().map(element).collect();
    let call = |random: &mut Random| match random.below(4) {
        0 => Action::SetCounter(b'a', 1 + random.below(2) as u64),
        _ => Action::StoreText(b'a', vec![*random.pick(b"ab1-")], None),
    };
    let length = if random.one_in(4) { 0 } else { 1 + random.below(2) };
    let before = (0..length).map(|_| call(random)).collect();
    let actions = [Action::Literal(b'b'), Action::Literal(b'-'), Action::Value(b'a', None)];
    let length = random.below(3);
    let replacement = (0..length).map(|_| random.pick(&actions).clone()).collect();
    let symbol = if random.one_in(2) { Symbol::Equals } else { Symbol::Less };
    Macro { before, pattern, symbol, replacement, commands: Vec::new() }
}

/// A pattern of 1 to 5 elements, with braces put between them.
pub fn any_pattern(random: &mut Random, odd: bool) -> Vec<Item> {
    let mut items = Vec::new();
    let mut open = 0;
    for _ in 0..1 + random.below(5) {
        while random.one_in(4) {
            items.push(Item::Open);
            open += 1;
        }
        items.push(Item::Element(any_element(random, odd)));
        while open > 0 && random.one_in(3) {
            items.push(Item::Close);
            open -= 1;
        }
    }
    items.extend((0..open).map(|_| Item::Close));
    items
}

fn any_element(random: &mut Random, odd: bool) -> Element {
    match random.below(20) {
        0 => return Element::LineStart,
        1 => return Element::LineEnd,
        _ => {}
    }
    let closures = [Closure::None, Closure::OneOrMore, Closure::ZeroOrMore];
    Element::Unit(any_unit(random, odd), *random.pick(&closures))
}

fn any_unit(random: &mut Random, odd: bool) -> Unit {
    match random.below(10) {
        0 | 1 => Unit::Kind(1 + random.below(6) as u8),
        2 | 3 => Unit::Class(any_class(random, odd)),
        4 => Unit::Entry(*random.pick(LETTERS)),
        5 => Unit::Value(*random.pick(LETTERS)),
        _ => Unit::Literal(any_byte(random, odd)),
    }
}

fn any_byte(random: &mut Random, odd: bool) -> u8 {
    match odd {
        true if random.one_in(20) => 1 + random.below(255) as u8,
        _ if random.one_in(20) => *random.pick(HIGH),
        true => *random.pick(SPECIAL),
        false => *random.pick(PLAIN),
    }
}

fn any_class(random: &mut Random, odd: bool) -> Class {
    let ranges = [(b'a', b'c'), (b'b', b'b'), (b'0', b'9'), (b'A', b'Z')];
    let length = 1 + random.below(3);
    let members = (0..length).map(|_| match random.below(3) {
        0 => {
            let (low, high) = *random.pick(&ranges);
            Member::Range(low, high)
        }
        _ => Member::One(any_byte(random, odd)),
    });
    let members = members.collect();
    Class { complement: random.one_in(3), members }
}

fn any_move(random: &mut Random) -> Option<Move> {
    let sign = if random.one_in(3) { Sign::Minus } else { Sign::Plus };
    match random.below(4) {
        0 => Some(Move::Before(sign)),
        1 => Some(Move::After(sign)),
        _ => None,
    }
}

fn any_action(random: &mut Random, odd: bool, tags: usize) -> Action {
    match random.below(13) {
        12 => Action::Divided(*random.pick(LETTERS), *random.pick(&[1, 2, 4, 10, 999_999_999])),
        0 => Action::Entry(*random.pick(LETTERS), any_move(random)),
        1 => Action::Value(*random.pick(LETTERS), any_move(random)),
        2 => any_command(random, odd, tags),
        3..=5 if tags > 0 => Action::Tag(1 + random.below(tags)),
        _ => Action::Literal(any_byte(random, odd)),
    }
}

fn any_command(random: &mut Random, odd: bool, tags: usize) -> Action {
    let letter = *random.pick(LETTERS);
    match random.below(8) {
        0 => Action::SetPointer(letter, *random.pick(&[1, 2, 19, 20])),
        1 => Action::SetCounter(letter, *random.pick(&[1, 2, 10, 999_999_999])),
        2 => Action::SetIncrement(letter, *random.pick(&[1, 3, 10, 999_999_998])),
        3..=5 if tags > 0 => Action::StoreTag(1 + random.below(tags), letter, any_move(random)),
        _ => {
            let length = random.below(4);
            let text = (0..length).map(|_| any_byte(random, odd)).collect();
            Action::StoreText(letter, text, any_move(random))
        }
    }
}
