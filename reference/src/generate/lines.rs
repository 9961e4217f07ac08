//! Lines for a table, control lines among them, and cases of both.

use super::{damaged_file, good_file, Case, Random, HIGH};
use crate::kinds::is_kind;
use crate::macros::{Closure, Element, Item, Macro, Unit};
use crate::read::read_file;

/// Bytes that a pattern could match: closures have up to 3 copies.
fn matched_text(random: &mut Random, pattern: &[Item]) -> Vec<u8> {
    let mut text = Vec::new();
    for item in pattern {
        if let Item::Element(Element::Unit(unit, closure)) = item {
            let copies = match closure {
                Closure::None => 1,
                Closure::OneOrMore => 1 + random.below(3),
                Closure::ZeroOrMore => random.below(3),
            };
            for _ in 0..copies {
                text.extend(matched_byte(random, unit));
            }
        }
    }
    text
}

fn matched_byte(random: &mut Random, unit: &Unit) -> Option<u8> {
    let fits = |random: &mut Random, test: &dyn Fn(u8) -> bool| {
        let bytes: &[u8] = if random.one_in(4) { HIGH } else { b"ab1-A; ~" };
        let found: Vec<u8> = bytes.iter().copied().filter(|byte| test(*byte)).collect();
        if found.is_empty() {
            None
        } else {
            Some(*random.pick(&found))
        }
    };
    match unit {
        Unit::Literal(byte) => Some(*byte).filter(|byte| *byte != b'\n'),
        Unit::Kind(n) => fits(random, &|byte| is_kind(*n, byte)),
        Unit::Class(class) => fits(random, &|byte| class.holds(byte)),
        Unit::Entry(_) => Some(*random.pick(b"ab1")).filter(|_| random.one_in(2)),
        Unit::Value(_) => Some(*random.pick(b"11123")),
    }
}

fn any_byte(random: &mut Random) -> u8 {
    let bytes: &[u8] = if random.one_in(12) { HIGH } else { b"aab1-c " };
    *random.pick(bytes)
}

/// A line: often bytes that one of the macros could match.
pub fn any_line(random: &mut Random, table: &[Macro]) -> Vec<u8> {
    if random.one_in(8) {
        return control_line(random);
    }
    let mut line = Vec::new();
    for _ in 0..1 + random.below(3) {
        if random.one_in(2) || table.is_empty() {
            let length = random.below(5);
            line.extend((0..length).map(|_| any_byte(random)));
        } else {
            let of = random.below(table.len());
            line.extend(matched_text(random, &table[of].pattern));
        }
    }
    if random.one_in(60) {
        line.push(*random.pick(b"\n\0$"));
    }
    line
}

const FLAG_LINES: &[&str] =
    &["$TRACE 0", "$TRACE 1", "$NFLAG 1", "$NFLAG 0", "$NFLAG 2", "$TRACE 1 ", "$", "$x"];

fn control_line(random: &mut Random) -> Vec<u8> {
    if random.one_in(2) {
        return random.pick(FLAG_LINES).as_bytes().to_vec();
    }
    let mut line = b"$MACRO ".to_vec();
    let count = if random.one_in(5) { random.below(3) } else { 1 };
    let file = good_file(random, false, count);
    let file = if random.one_in(4) { damaged_file(random, file) } else { file };
    line.extend(file.into_iter().filter(|byte| *byte != b'\n'));
    line
}

/// A budget, nearly always too small to let a growing line take long.
pub fn any_budget(random: &mut Random) -> u64 {
    match random.below(12) {
        0 => random.below(4) as u64,
        1 => 40,
        2 if random.one_in(6) => *random.pick(&[1_000_001, 10_000_000_000]),
        _ => 5 + random.below(16) as u64,
    }
}

/// The oldest macro of a table that makes control lines.
const MAKES_CONTROL: &[u8] = b"'@'<'$';";

/// A file that reading mostly takes, and lines for it. In some a pass makes
/// the `$` of a control line.
pub fn any_case(random: &mut Random, macros: usize, lines: usize) -> Case {
    let odd = random.one_in(6);
    let count = if random.one_in(12) { 0 } else { 1 + random.below(macros) };
    let mut file = good_file(random, odd, count);
    let makes_control = random.one_in(6);
    if makes_control {
        file.splice(..0, MAKES_CONTROL.iter().copied());
    }
    if random.one_in(20) {
        file = damaged_file(random, file);
    }
    let table = read_file(&file).unwrap_or_default();
    let mut fed = Vec::new();
    if random.one_in(4) {
        fed.push((5, b"$TRACE 1".to_vec()));
    }
    for _ in 0..1 + random.below(lines) {
        let mut line = any_line(random, &table);
        if makes_control && line.first() == Some(&b'$') && random.one_in(2) {
            line[0] = b'@';
        }
        fed.push((any_budget(random), line));
    }
    Case { file, lines: fed }
}
