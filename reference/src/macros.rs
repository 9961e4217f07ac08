//! What a macro is: calls before its pattern, pattern, symbol, replacement and
//! commands (reading 17; 02, reading 11).

/// `=` keeps a macro open, `<` closes it to the line once it occurred.
#[derive(Clone, Copy, Debug, PartialEq, Eq)]
pub enum Symbol {
    Equals,
    Less,
}

/// A member of a class, in the order read. `[a-a]` is a range.
#[derive(Clone, Copy, Debug, PartialEq, Eq)]
pub enum Member {
    One(u8),
    Range(u8, u8),
}

#[derive(Clone, Debug, PartialEq, Eq)]
pub struct Class {
    pub complement: bool,
    pub members: Vec<Member>,
}

impl Class {
    pub fn holds(&self, byte: u8) -> bool {
        let listed = self.members.iter().any(|member| match *member {
            Member::One(c) => c == byte,
            Member::Range(low, high) => low <= byte && byte <= high,
        });
        listed != self.complement
    }
}

/// What one copy of an element matches. A letter is `a` to `z`.
#[derive(Clone, Debug, PartialEq, Eq)]
pub enum Unit {
    Literal(u8),
    Kind(u8),
    Class(Class),
    Entry(u8),
    Value(u8),
}

/// No closure, `*` or `*-`.
#[derive(Clone, Copy, Debug, PartialEq, Eq)]
pub enum Closure {
    None,
    OneOrMore,
    ZeroOrMore,
}

#[derive(Clone, Debug, PartialEq, Eq)]
pub enum Element {
    LineStart,
    LineEnd,
    Unit(Unit, Closure),
}

/// A pattern is a list of elements with the braces of tags between them.
#[derive(Clone, Debug, PartialEq, Eq)]
pub enum Item {
    Open,
    Close,
    Element(Element),
}

#[derive(Clone, Copy, Debug, PartialEq, Eq)]
pub enum Sign {
    Plus,
    Minus,
}

/// The `+` or `-` of a call, before or after its letter.
#[derive(Clone, Copy, Debug, PartialEq, Eq)]
pub enum Move {
    Before(Sign),
    After(Sign),
}

/// One step of a replacement, one command, or one call before a pattern.
#[derive(Clone, Debug, PartialEq, Eq)]
pub enum Action {
    Literal(u8),
    Tag(usize),
    Entry(u8, Option<Move>),
    StoreTag(usize, u8, Option<Move>),
    SetPointer(u8, usize),
    StoreText(u8, Vec<u8>, Option<Move>),
    Value(u8, Option<Move>),
    SetCounter(u8, u64),
    SetIncrement(u8, u64),
    /// `#(i:n)`: the value divided by n, a space, and what is left over.
    Divided(u8, u64),
}

#[derive(Clone, Debug, PartialEq, Eq)]
pub struct Macro {
    /// The calls before the pattern, which run when a line first tries it.
    pub before: Vec<Action>,
    pub pattern: Vec<Item>,
    pub symbol: Symbol,
    pub replacement: Vec<Action>,
    pub commands: Vec<Action>,
}

impl Macro {
    pub fn tags(&self) -> usize {
        tags(&self.pattern)
    }

    /// The number of pattern elements: a closure and its unit are one.
    pub fn elements(&self) -> usize {
        self.pattern.iter().filter(|item| matches!(item, Item::Element(_))).count()
    }
}

/// The number of tags of a pattern: its left braces.
pub fn tags(pattern: &[Item]) -> usize {
    pattern.iter().filter(|item| **item == Item::Open).count()
}

/// The macros, oldest first.
pub type Table = Vec<Macro>;
