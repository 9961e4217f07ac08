//! Writing out, reading back, and the shortest spelling.

use m7_reference::bounds::MACRO_BYTES;
use m7_reference::generate::{any_macro, padded_spelling, Random};
use m7_reference::macros::{Action, Class, Closure, Element, Item, Macro, Member, Symbol, Unit};
use m7_reference::read::read_file;
use m7_reference::spell::{shortest_length, shortest_spelling, some_file_spells};
use m7_reference::spelling::{spell_macro, Rule};
use m7_reference::write::{write_table, written_macro};
use std::cell::Cell;
use std::collections::HashMap;

const MACROS: usize = 40_000;

#[test]
fn every_spelling_reads_back() {
    let mut random = Random::new(2);
    for case in 0..MACROS {
        let made = any_macro(&mut random, case % 4 != 0);
        let padded = padded_spelling(&mut random, &made);
        let shortest = shortest_spelling(&made);
        let written = written_macro(&made);
        assert!(shortest.len() <= padded.len() && shortest.len() <= written.len());
        assert!(some_file_spells(&made));
        for spelling in [&padded, &shortest, &written] {
            let text = String::from_utf8_lossy(spelling);
            assert!(spelling.len() <= MACRO_BYTES);
            assert_eq!(read_file(spelling), Ok(vec![made.clone()]), "{text}");
        }
    }
}

#[test]
fn a_written_table_reads_back_and_is_written_alike() {
    let mut random = Random::new(3);
    for _ in 0..MACROS / 8 {
        let count = random.below(6);
        let table: Vec<Macro> = (0..count).map(|_| any_macro(&mut random, true)).collect();
        let file = write_table(&table).unwrap();
        let again = read_file(&file).unwrap();
        assert_eq!(again, table);
        assert_eq!(write_table(&again).unwrap(), file);
    }
}

/// A spelling in which the bits of `mask` say where `\` stands.
struct Masked {
    mask: u32,
    literals: Cell<u32>,
}

impl Masked {
    fn next(&self) -> bool {
        let literal = self.literals.get();
        self.literals.set(literal + 1);
        self.mask >> literal.min(31) & 1 == 1
    }
}

impl Rule for Masked {
    fn in_pattern(&self, _: &[Item], _: usize, _: u8) -> bool {
        self.next()
    }
    fn in_class(&self, _: &Class, _: usize, _: u8) -> bool {
        self.next()
    }
    fn in_replacement(&self, _: &[Action], _: usize, _: u8) -> bool {
        self.next()
    }
    fn in_text(&self, _: u8) -> bool {
        self.next()
    }
    fn names_tab(&self) -> bool {
        false
    }
}

fn masked(made: &Macro, mask: u32) -> (Vec<u8>, u32) {
    let rule = Masked { mask, literals: Cell::new(0) };
    let spelling = spell_macro(&rule, made);
    (spelling, rule.literals.get())
}

#[test]
fn no_other_choice_of_escapes_is_shorter() {
    let mut random = Random::new(4);
    let mut tried = 0;
    while tried < 3_000 {
        let made = any_macro(&mut random, true);
        let literals = masked(&made, 0).1;
        if literals > 8 {
            continue;
        }
        tried += 1;
        let spellings = (0..1 << literals).map(|mask| masked(&made, mask).0);
        let fitting = spellings.filter(|text| read_file(text) == Ok(vec![made.clone()]));
        let fewest = fitting.map(|text| text.len()).min();
        assert_eq!(fewest, Some(shortest_length(&made)), "{made:?}");
    }
}

/// All texts of up to `length` bytes of `alphabet`, between two fixed texts.
fn all_texts(alphabet: &[u8], length: u32, mut each: impl FnMut(&[u8])) {
    for digits in 0..=length {
        for number in 0..alphabet.len().pow(digits) {
            let mut rest = number;
            let mut text = Vec::new();
            for _ in 0..digits {
                text.push(alphabet[rest % alphabet.len()]);
                rest /= alphabet.len();
            }
            each(&text);
        }
    }
}

/// Reads every text and compares the fewest bytes found for each macro with
/// its shortest spelling. A text of one byte more than `length` is not tried,
/// so a macro found must have its shortest spelling among those tried.
fn fewest_bytes(before: &str, after: &str, alphabet: &[u8], length: u32) -> usize {
    let mut fewest: HashMap<Vec<u8>, (usize, Macro)> = HashMap::new();
    all_texts(alphabet, length, |text| {
        let file = [before.as_bytes(), text, after.as_bytes()].concat();
        if let Ok(mut table) = read_file(&file) {
            if let (Some(made), true) = (table.pop(), table.is_empty()) {
                let entry = fewest.entry(written_macro(&made)).or_insert((file.len(), made));
                entry.0 = entry.0.min(file.len());
            }
        }
    });
    for (length, made) in fewest.values() {
        assert_eq!(*length, shortest_length(made), "{made:?}");
    }
    fewest.len()
}

#[test]
fn among_all_short_texts_none_is_shorter() {
    let patterns = fewest_bytes("'", "'='';", b"a3\\?*-{}[]~&()", 4);
    let signs = fewest_bytes("'", "'='';", b"3\\?*-&(", 5);
    let classes = fewest_bytes("'[", "]'='';", b"ac\\]~-[", 6);
    let replacements = fewest_bytes("'{a}'='", "';", b"a\\&#():{}1", 5);
    let texts = fewest_bytes("'a'='&(a:", ":)';", b"a\\:/&({", 5);
    let counters = fewest_bytes("'a'='#(", ")';", b"a:,=10 +/", 5);
    let calls = fewest_bytes("#(a=1)&(a", ")'a'='';", b"a:=1+-\\)&", 5);
    println!("{patterns} {signs} {classes} {replacements} {texts} {counters} {calls} macros");
    assert!(patterns > 1000 && signs > 1000 && classes > 1000 && replacements > 1000);
    assert!(calls > 100);
}

fn of_actions(tags: usize, replacement: Vec<Action>, commands: Vec<Action>) -> Macro {
    let mut pattern = vec![Item::Open; tags];
    pattern.push(literal(b'a'));
    pattern.extend(vec![Item::Close; tags]);
    Macro { before: Vec::new(), pattern, symbol: Symbol::Equals, replacement, commands }
}

fn of_calls(before: Vec<Action>) -> Macro {
    Macro { before, ..of_actions(1, Vec::new(), Vec::new()) }
}

fn of_pattern(pattern: Vec<Item>) -> Macro {
    let (symbol, none) = (Symbol::Less, Vec::new);
    Macro { before: none(), pattern, symbol, replacement: none(), commands: none() }
}

fn literal(byte: u8) -> Item {
    Item::Element(Element::Unit(Unit::Literal(byte), Closure::None))
}

fn class(members: Vec<Member>) -> Item {
    let class = Class { complement: false, members };
    Item::Element(Element::Unit(Unit::Class(class), Closure::None))
}

/// Macros that no file spells: each breaks one rule of part 2.
#[test]
fn some_macros_are_spelled_by_no_file() {
    let text = |length| Action::StoreText(b'a', vec![b'x'; length], None);
    let spelled = [
        of_actions(99, vec![Action::Tag(99)], Vec::new()),
        of_actions(0, vec![text(100)], vec![text(0)]),
        of_actions(0, vec![Action::Literal(b':'); 505], Vec::new()),
        of_pattern(vec![class(vec![Member::Range(b'a', b'a')])]),
    ];
    assert!(spelled.iter().all(some_file_spells));
    let not_spelled = [
        of_actions(100, Vec::new(), Vec::new()),
        of_actions(1, vec![Action::Tag(2)], Vec::new()),
        of_actions(1, vec![Action::Tag(0)], Vec::new()),
        of_actions(0, vec![text(101)], Vec::new()),
        of_actions(0, vec![Action::Literal(b':'); 506], Vec::new()),
        of_actions(0, vec![Action::Literal(b'/'); 253], Vec::new()),
        of_actions(0, vec![Action::Literal(0)], Vec::new()),
        of_actions(0, vec![Action::SetPointer(b'a', 21)], Vec::new()),
        of_actions(0, vec![Action::SetCounter(b'a', 1_000_000_000)], Vec::new()),
        of_actions(0, vec![Action::Divided(b'a', 1_000_000_000)], Vec::new()),
        of_actions(0, vec![Action::Divided(b'a', 0)], Vec::new()),
        of_actions(0, Vec::new(), vec![Action::Divided(b'a', 4)]),
        of_actions(0, Vec::new(), vec![Action::Entry(b'a', None)]),
        of_actions(0, Vec::new(), vec![Action::Literal(b'a')]),
        of_pattern(Vec::new()),
        of_pattern(vec![Item::Open, Item::Close]),
        of_pattern(vec![Item::Open, literal(b'a')]),
        of_pattern(vec![literal(0)]),
        of_pattern(vec![class(Vec::new())]),
        of_pattern(vec![class(vec![Member::Range(b'b', b'a')])]),
        of_pattern(vec![class(vec![Member::Range(b'A', b'a')])]),
    ];
    for made in &not_spelled {
        assert!(!some_file_spells(made), "{made:?}");
    }
}

/// Before a pattern no tag is stored, and nothing is inserted.
#[test]
fn some_calls_before_a_pattern_are_spelled_by_no_file() {
    let text = |length: usize| Action::StoreText(b'a', vec![b'x'; length], None);
    let spelled = [
        of_calls(vec![text(100), Action::SetPointer(b'a', 20), Action::SetCounter(b'b', 1)]),
        of_calls(vec![Action::SetIncrement(b'b', 100); 62]),
    ];
    assert!(spelled.iter().all(some_file_spells));
    let not_spelled = [
        of_calls(vec![Action::Tag(1)]),
        of_calls(vec![Action::Literal(b'a')]),
        of_calls(vec![Action::Entry(b'a', None)]),
        of_calls(vec![Action::Value(b'a', None)]),
        of_calls(vec![Action::Divided(b'a', 4)]),
        of_calls(vec![Action::StoreTag(1, b'a', None)]),
        of_calls(vec![text(101)]),
        of_calls(vec![Action::SetIncrement(b'b', 100); 63]),
    ];
    for made in not_spelled {
        assert!(!some_file_spells(&made), "{made:?}");
    }
}
