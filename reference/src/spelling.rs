//! The bytes that spell a macro, under a rule for where `\` stands.
//! Writing out and the shortest spelling differ in that rule only.

use crate::macros::{
    Action, Class, Closure, Element, Item, Macro, Member, Move, Sign, Symbol, Unit,
};

/// Where a spelling puts `\`. A line feed is `\n` in every spelling here.
pub trait Rule {
    /// Before the literal at `index` of a pattern.
    fn in_pattern(&self, pattern: &[Item], index: usize, byte: u8) -> bool;
    /// Before the single member at `index` of a class.
    fn in_class(&self, class: &Class, index: usize, byte: u8) -> bool;
    /// Before the literal at `index` of a replacement.
    fn in_replacement(&self, actions: &[Action], index: usize, byte: u8) -> bool;
    /// Before a byte of a call's text.
    fn in_text(&self, byte: u8) -> bool;
    /// Whether a tab is `\t`; otherwise it stands as it is.
    fn names_tab(&self) -> bool;
    /// Bytes that mean nothing, put after a byte of a pattern or replacement.
    fn between(&self) -> &'static str {
        ""
    }
}

/// The macro from its first byte to its `;`.
pub fn spell_macro(rule: &dyn Rule, spelled: &Macro) -> Vec<u8> {
    let mut speller = Speller { rule, bytes: Vec::new() };
    speller.actions(&spelled.before);
    speller.bytes.push(b'\'');
    speller.pattern(&spelled.pattern);
    speller.bytes.push(b'\'');
    speller.bytes.push(match spelled.symbol {
        Symbol::Equals => b'=',
        Symbol::Less => b'<',
    });
    speller.bytes.push(b'\'');
    speller.actions(&spelled.replacement);
    speller.bytes.push(b'\'');
    speller.actions(&spelled.commands);
    speller.bytes.push(b';');
    speller.bytes
}

struct Speller<'a> {
    rule: &'a dyn Rule,
    bytes: Vec<u8>,
}

impl Speller<'_> {
    fn put(&mut self, text: &str) {
        self.bytes.extend_from_slice(text.as_bytes());
    }

    fn literal(&mut self, byte: u8, escaped: bool) {
        match byte {
            b'\n' => self.put("\\n"),
            b'\t' if self.rule.names_tab() => self.put("\\t"),
            _ if escaped => self.bytes.extend([b'\\', byte]),
            _ => self.bytes.push(byte),
        }
    }

    fn pattern(&mut self, pattern: &[Item]) {
        for (index, item) in pattern.iter().enumerate() {
            self.put(self.rule.between());
            match item {
                Item::Open => self.bytes.push(b'{'),
                Item::Close => self.bytes.push(b'}'),
                Item::Element(Element::LineStart) => self.bytes.push(b'^'),
                Item::Element(Element::LineEnd) => self.bytes.push(b'$'),
                Item::Element(Element::Unit(Unit::Literal(byte), closure)) => {
                    self.literal(*byte, self.rule.in_pattern(pattern, index, *byte));
                    self.closure(*closure);
                }
                Item::Element(Element::Unit(unit, closure)) => {
                    self.unit(unit);
                    self.closure(*closure);
                }
            }
        }
    }

    fn closure(&mut self, closure: Closure) {
        match closure {
            Closure::None => {}
            Closure::OneOrMore => self.put("*"),
            Closure::ZeroOrMore => {
                self.put("*");
                self.put(self.rule.between());
                self.put("-");
            }
        }
    }

    fn unit(&mut self, unit: &Unit) {
        match unit {
            Unit::Literal(_) => {}
            Unit::Kind(n) => self.put(&format!("?{n}")),
            Unit::Class(class) => self.class(class),
            Unit::Entry(letter) => self.put(&format!("&({})", *letter as char)),
            Unit::Value(letter) => self.put(&format!("#({})", *letter as char)),
        }
    }

    fn class(&mut self, class: &Class) {
        self.put(if class.complement { "[~" } else { "[" });
        for (index, member) in class.members.iter().enumerate() {
            match *member {
                Member::One(byte) => {
                    self.literal(byte, self.rule.in_class(class, index, byte));
                }
                Member::Range(low, high) => self.bytes.extend([low, b'-', high]),
            }
        }
        self.put("]");
    }

    fn actions(&mut self, actions: &[Action]) {
        for (index, action) in actions.iter().enumerate() {
            self.put(self.rule.between());
            match action {
                Action::Literal(byte) => {
                    self.literal(*byte, self.rule.in_replacement(actions, index, *byte));
                }
                other => self.call(other),
            }
        }
    }

    fn call(&mut self, action: &Action) {
        let text = match action {
            Action::Literal(_) => String::new(),
            Action::Tag(n) => format!("{{{n}}}"),
            Action::Entry(i, step) => format!("&({})", moved(*i, *step)),
            Action::StoreTag(n, i, step) => format!("&({n},{})", moved(*i, *step)),
            Action::SetPointer(i, n) => format!("&({}={n})", *i as char),
            Action::StoreText(i, text, step) => return self.store_text(*i, text, *step),
            Action::Value(i, step) => format!("#({})", moved(*i, *step)),
            Action::SetCounter(i, n) => format!("#({}={n})", *i as char),
            Action::SetIncrement(i, n) => format!("#({},{n})", *i as char),
            Action::Divided(i, n) => format!("#({}:{n})", *i as char),
        };
        self.put(&text);
    }

    fn store_text(&mut self, letter: u8, text: &[u8], step: Option<Move>) {
        self.put(&format!("&({}:", moved(letter, step)));
        for byte in text {
            self.literal(*byte, self.rule.in_text(*byte));
        }
        self.put(":)");
    }
}

/// The letter of a call with its `+` or `-`.
fn moved(letter: u8, step: Option<Move>) -> String {
    let letter = letter as char;
    match step {
        None => format!("{letter}"),
        Some(Move::Before(sign)) => format!("{}{letter}", sign_char(sign)),
        Some(Move::After(sign)) => format!("{letter}{}", sign_char(sign)),
    }
}

fn sign_char(sign: Sign) -> char {
    match sign {
        Sign::Plus => '+',
        Sign::Minus => '-',
    }
}
