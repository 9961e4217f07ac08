//! The shortest spelling of a macro: `\` only where reading needs it
//! (reading 18). A macro is one that some file spells if this has at most
//! 512 bytes.

use crate::bounds::MACRO_BYTES;
use crate::macros::{Action, Class, Closure, Element, Item, Macro, Member, Unit};
use crate::read::read_file;
use crate::spelling::{spell_macro, Rule};

pub struct Shortest;

impl Rule for Shortest {
    fn in_pattern(&self, pattern: &[Item], index: usize, byte: u8) -> bool {
        if b"$^*[{}/\\';".contains(&byte) {
            return true;
        }
        let plain = matches!(&pattern[index], Item::Element(Element::Unit(_, Closure::None)));
        let next = pattern.get(index + 1).and_then(literal_of);
        match byte {
            b'?' => plain && matches!(next, Some(b'1'..=b'6')),
            b'&' | b'#' => plain && next == Some(b'('),
            b'-' => index > 0 && ends_in_star(&pattern[index - 1]),
            _ => false,
        }
    }

    fn in_class(&self, class: &Class, index: usize, byte: u8) -> bool {
        let last = index + 1 == class.members.len();
        match byte {
            b']' | b'\\' | b'\'' | b';' => true,
            b'~' => index == 0 && !class.complement,
            b'-' => !last && index > 0 && matches!(class.members[index - 1], Member::One(_)),
            _ => false,
        }
    }

    fn in_replacement(&self, actions: &[Action], index: usize, byte: u8) -> bool {
        match byte {
            b'{' | b'/' | b'\\' | b'\'' | b';' => true,
            b'&' | b'#' => actions.get(index + 1) == Some(&Action::Literal(b'(')),
            _ => false,
        }
    }

    fn in_text(&self, byte: u8) -> bool {
        b":/\\';".contains(&byte)
    }

    fn names_tab(&self) -> bool {
        false
    }
}

fn literal_of(item: &Item) -> Option<u8> {
    match item {
        Item::Element(Element::Unit(Unit::Literal(byte), _)) => Some(*byte),
        _ => None,
    }
}

fn ends_in_star(item: &Item) -> bool {
    matches!(item, Item::Element(Element::Unit(_, Closure::OneOrMore)))
}

/// A shortest spelling, from the first byte to the `;`.
pub fn shortest_spelling(spelled: &Macro) -> Vec<u8> {
    spell_macro(&Shortest, spelled)
}

/// Its length: the fewest bytes of a file that spell the macro.
pub fn shortest_length(spelled: &Macro) -> usize {
    shortest_spelling(spelled).len()
}

/// Whether some file spells the macro: what 1 asks of each macro of a table.
pub fn some_file_spells(made: &Macro) -> bool {
    let spelling = shortest_spelling(made);
    let read = read_file(&spelling);
    spelling.len() <= MACRO_BYTES && read.is_ok_and(|table| table == [made.clone()])
}
