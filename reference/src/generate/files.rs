//! Macro files: good ones, damaged ones, and tokens in any order.

use super::{any_table, Random, HIGH, SPECIAL};
use crate::macros::{Action, Class, Item, Macro};
use crate::spell::{shortest_spelling, Shortest};
use crate::spelling::{spell_macro, Rule};
use crate::write::written_macro;
use std::cell::RefCell;

/// A spelling with needless `\` and skips in it.
struct Padded<'a> {
    random: RefCell<&'a mut Random>,
}

impl Padded<'_> {
    fn also(&self) -> bool {
        self.random.borrow_mut().one_in(6)
    }

    /// `\n` and `\t` mean other bytes.
    fn may_have(&self, byte: u8) -> bool {
        byte != b'n' && byte != b't' && self.also()
    }
}

impl Rule for Padded<'_> {
    fn in_pattern(&self, pattern: &[Item], index: usize, byte: u8) -> bool {
        Shortest.in_pattern(pattern, index, byte) || self.may_have(byte)
    }

    fn in_class(&self, class: &Class, index: usize, byte: u8) -> bool {
        Shortest.in_class(class, index, byte) || self.may_have(byte)
    }

    fn in_replacement(&self, actions: &[Action], index: usize, byte: u8) -> bool {
        Shortest.in_replacement(actions, index, byte) || self.may_have(byte)
    }

    fn in_text(&self, byte: u8) -> bool {
        Shortest.in_text(byte) || self.may_have(byte)
    }

    fn names_tab(&self) -> bool {
        self.also()
    }

    fn between(&self) -> &'static str {
        if !self.also() {
            return "";
        }
        self.random.borrow_mut().pick::<&str>(&["//", "/x/", "/';\n/", "/\\/"])
    }
}

/// The macro, spelled with needless escapes and skips.
pub fn padded_spelling(random: &mut Random, spelled: &Macro) -> Vec<u8> {
    spell_macro(&Padded { random: RefCell::new(random) }, spelled)
}

/// A file that reading takes, of `count` macros.
pub fn good_file(random: &mut Random, odd: bool, count: usize) -> Vec<u8> {
    let mut file = Vec::new();
    for made in any_table(random, odd, count) {
        if random.one_in(6) {
            file.extend_from_slice(random.pick(&["\n", " x ", "/'/", ";", "& (a)"]).as_bytes());
        }
        file.extend(match random.below(3) {
            0 => written_macro(&made),
            1 => shortest_spelling(&made),
            _ => padded_spelling(random, &made),
        });
    }
    file
}

/// The file with 1 to 3 bytes put in, taken out, changed or cut off.
pub fn damaged_file(random: &mut Random, mut file: Vec<u8>) -> Vec<u8> {
    for _ in 0..1 + random.below(3) {
        let place = random.below(file.len() + 1);
        let byte = match random.below(40) {
            0 => 0,
            1 | 2 => *random.pick(HIGH),
            _ => *random.pick(SPECIAL),
        };
        match random.below(5) {
            0 | 1 => file.insert(place, byte),
            2 if place < file.len() => file[place] = byte,
            3 if place < file.len() => {
                file.remove(place);
            }
            4 if random.one_in(2) => file.truncate(place),
            _ => {}
        }
    }
    file
}

const TOKENS: &[&str] = &[
    "'", "'", "'", "=", "<", ";", ";", "/", "\\", "*", "*-", "-", "{", "}", "[", "]", "[a-c]", "~",
    "^", "$", "?", "?3", "&(", "#(", "&(a)", "#(b)", ")", ":", ",", "+", "1", "2", "0", "a", "b",
    " ", "\t", "\n", "\"", "{1}", "(", "&", "#", "&(1,a)", "&(a:x:)", "#(a=5)", "#(a:4)", "#(a:",
    "\u{7f}",
];

/// Bytes over 127 as a class's member, as a range's end, and alone.
const HIGH_TOKENS: &[&[u8]] = &[b"[\xe9]", b"[a-\xe9]", b"[\xc0-\xd6]", b"\xe9"];

/// Tokens in any order, sometimes after the start of a good macro.
pub fn shuffled_file(random: &mut Random) -> Vec<u8> {
    let starts =
        ["", "", "'", "'a'='", "'{a}'='", "'a'=''", "'{a}'<'{1}'", "'['", "'a'='b';", "#(a=5)"];
    let mut file = random.pick(&starts).as_bytes().to_vec();
    for _ in 0..1 + random.below(12) {
        if random.one_in(20) {
            file.extend(*random.pick(HIGH_TOKENS));
        }
        file.extend_from_slice(random.pick(TOKENS).as_bytes());
    }
    file
}

/// Loses, changes or adds one byte; quotes and semicolons more often.
fn break_byte(random: &mut Random, file: &mut Vec<u8>) {
    let marks: Vec<usize> = (0..file.len()).filter(|at| b"';".contains(&file[*at])).collect();
    if marks.is_empty() {
        return;
    }
    let near_mark = random.one_in(2);
    let place = if near_mark { *random.pick(&marks) } else { random.below(file.len()) };
    match random.below(4) {
        0 | 1 => {
            file.remove(place);
        }
        2 => file[place] = *random.pick(SPECIAL),
        _ => file.insert(place, *random.pick(SPECIAL)),
    }
}

/// A good file of up to 60 macros with 1 to 40 bytes lost, changed or added.
fn file_with_faults(random: &mut Random) -> Vec<u8> {
    let (odd, most) = (random.one_in(3), *random.pick(&[2, 4, 8, 60]));
    let count = 1 + random.below(most);
    let mut file = good_file(random, odd, count);
    let times = *random.pick(&[1, 1, 1, 2, 3, 5, 10, 40]);
    for _ in 0..times {
        break_byte(random, &mut file);
    }
    file
}

/// A good file with some bytes lost, changed or added; or parts of such files,
/// with tokens in any order between them.
pub fn broken_file(random: &mut Random) -> Vec<u8> {
    if !random.one_in(3) {
        return file_with_faults(random);
    }
    let mut file = Vec::new();
    for _ in 0..1 + random.below(4) {
        let (odd, count) = (random.one_in(3), random.below(4));
        let part = good_file(random, odd, count);
        file.extend(if random.one_in(3) { part } else { damaged_file(random, part) });
        if random.one_in(4) {
            file.extend(shuffled_file(random));
        }
    }
    file
}

/// A good, damaged or shuffled file.
pub fn any_file(random: &mut Random) -> Vec<u8> {
    let odd = random.one_in(2);
    let count = random.below(4);
    match random.below(4) {
        0 => shuffled_file(random),
        1 => good_file(random, odd, count),
        _ => {
            let file = good_file(random, odd, count.max(1));
            damaged_file(random, file)
        }
    }
}
