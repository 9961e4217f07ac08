//! 01, part 3: the division chosen at a place.
//!
//! A closure `*` becomes a step that takes one copy and a step that repeats;
//! `*-` becomes a step that repeats. A repeating step tries one more copy
//! before it goes on, so divisions come in the order of most repeats at the
//! first closure, then at the second. A step and a place that were tried
//! without success are marked and not tried again, so all places of a line
//! together cost at most steps times places. Nothing here calls itself.

use crate::kinds::is_kind;
use crate::macros::{Class, Closure, Element, Item, Unit};
use crate::state::State;

/// The spans of a division as far as they are used: its ends, the span of
/// each tag by number, and the repeats of each closure.
#[derive(Clone, Debug, PartialEq, Eq)]
pub struct Division {
    pub start: usize,
    pub end: usize,
    pub tags: Vec<(usize, usize)>,
    pub repeats: Vec<usize>,
}

impl Division {
    pub fn is_empty(&self) -> bool {
        self.start == self.end
    }
}

/// A unit under the stacks and counters of the moment.
enum OneCopy<'a> {
    Literal(u8),
    Kind(u8),
    Class(&'a Class),
    Text(Vec<u8>),
}

impl OneCopy<'_> {
    fn of<'a>(unit: &'a Unit, state: &State) -> OneCopy<'a> {
        match unit {
            Unit::Literal(byte) => OneCopy::Literal(*byte),
            Unit::Kind(n) => OneCopy::Kind(*n),
            Unit::Class(class) => OneCopy::Class(class),
            Unit::Entry(letter) => OneCopy::Text(state.stack(*letter).entry().to_vec()),
            Unit::Value(letter) => OneCopy::Text(state.counter(*letter).digits()),
        }
    }

    fn width(&self) -> usize {
        match self {
            OneCopy::Text(text) => text.len(),
            _ => 1,
        }
    }

    /// Whether one copy stands at the start of `rest`.
    fn stands(&self, rest: &[u8]) -> bool {
        match (self, rest.first()) {
            (OneCopy::Text(text), _) => rest.starts_with(text),
            (OneCopy::Literal(byte), Some(found)) => byte == found,
            (OneCopy::Kind(n), Some(found)) => is_kind(*n, *found),
            (OneCopy::Class(class), Some(found)) => class.holds(*found),
            (_, None) => false,
        }
    }
}

enum Step<'a> {
    LineStart,
    LineEnd,
    One(OneCopy<'a>),
    Repeat(OneCopy<'a>),
}

impl Step<'_> {
    fn is_of_call(&self) -> bool {
        matches!(self, Step::One(OneCopy::Text(_)) | Step::Repeat(OneCopy::Text(_)))
    }
}

/// What a step does at a place.
enum Turn {
    Enter(usize, usize),
    Again(usize),
    Fail,
}

/// The steps of one pattern over one line under one state.
pub struct Matcher<'a> {
    line: &'a [u8],
    pattern: &'a [Item],
    steps: Vec<Step<'a>>,
    /// For each item of the pattern the first step at or after it.
    first_step: Vec<usize>,
    /// The place where each step began, and at last the division's end.
    began: Vec<usize>,
    /// A bit for each step and place tried without success.
    marks: Vec<u64>,
    /// The bits set in `marks`.
    marked: Vec<usize>,
    /// Steps to enter instead, latest first.
    untried: Vec<(usize, usize)>,
}

impl<'a> Matcher<'a> {
    pub fn new(pattern: &'a [Item], line: &'a [u8], state: &State) -> Matcher<'a> {
        let mut steps = Vec::new();
        let mut first_step = Vec::new();
        for item in pattern {
            first_step.push(steps.len());
            if let Item::Element(element) = item {
                add_steps(&mut steps, element, state);
            }
        }
        let began = vec![0; steps.len() + 1];
        let marks = vec![0; steps.len() * (line.len() + 1) / 64 + 1];
        let (marked, untried) = (Vec::new(), Vec::new());
        Matcher { line, pattern, steps, first_step, began, marks, marked, untried }
    }

    /// The same pattern and line under a state that may have moved.
    pub fn under(self, state: &State) -> Matcher<'a> {
        let has_call = self.steps.iter().any(Step::is_of_call);
        if has_call {
            Matcher::new(self.pattern, self.line, state)
        } else {
            self
        }
    }

    /// The division chosen at `place`, if the place has one.
    pub fn choose(&mut self, place: usize) -> Option<Division> {
        if !self.divide(place) {
            return None;
        }
        self.unmark();
        Some(self.division())
    }

    /// After a success: the marks of its own steps are no failures.
    fn unmark(&mut self) {
        for bit in self.marked.drain(..) {
            self.marks[bit / 64] = 0;
        }
    }

    fn divide(&mut self, start: usize) -> bool {
        self.untried.clear();
        self.began[0] = start;
        let (mut step, mut place) = (0, start);
        while step < self.steps.len() {
            let turn = if self.mark(step, place) { self.turn(step, place) } else { Turn::Fail };
            let entered = match turn {
                Turn::Again(next) => {
                    place = next;
                    continue;
                }
                Turn::Enter(step, place) => Some((step, place)),
                Turn::Fail => self.untried.pop(),
            };
            let Some(next) = entered else {
                return false;
            };
            (step, place) = next;
            self.began[step] = place;
        }
        true
    }

    /// Marks a step and place; false if they were marked before.
    fn mark(&mut self, step: usize, place: usize) -> bool {
        let bit = step * (self.line.len() + 1) + place;
        if self.marks[bit / 64] >> (bit % 64) & 1 == 1 {
            return false;
        }
        self.marks[bit / 64] |= 1 << (bit % 64);
        self.marked.push(bit);
        true
    }

    fn turn(&mut self, step: usize, place: usize) -> Turn {
        let rest = &self.line[place..];
        let next = match &self.steps[step] {
            Step::LineStart => (place == 0).then_some(place),
            Step::LineEnd => rest.is_empty().then_some(place),
            Step::One(copy) => copy.stands(rest).then(|| place + copy.width()),
            Step::Repeat(copy) => {
                if copy.width() > 0 && copy.stands(rest) {
                    self.untried.push((step + 1, place));
                    return Turn::Again(place + copy.width());
                }
                Some(place)
            }
        };
        next.map_or(Turn::Fail, |place| Turn::Enter(step + 1, place))
    }

    /// The division that the steps found.
    fn division(&self) -> Division {
        let mut tags = Vec::new();
        let mut open = Vec::new();
        let mut repeats = Vec::new();
        for (item, step) in self.pattern.iter().zip(&self.first_step) {
            let place = self.began[*step];
            match item {
                Item::Open => {
                    open.push(tags.len());
                    tags.push((place, place));
                }
                Item::Close => {
                    let tag = open.pop().expect("a pattern's braces are in pairs");
                    tags[tag].1 = place;
                }
                Item::Element(Element::Unit(_, closure)) => {
                    repeats.extend(self.repeats(*closure, *step));
                }
                Item::Element(_) => {}
            }
        }
        Division { start: self.began[0], end: self.began[self.steps.len()], tags, repeats }
    }

    /// The repeats of a closure: an empty entry counts once under `*`.
    fn repeats(&self, closure: Closure, first: usize) -> Option<usize> {
        let last = match closure {
            Closure::None => return None,
            Closure::OneOrMore => first + 1,
            Closure::ZeroOrMore => first,
        };
        let Step::Repeat(copy) = &self.steps[last] else {
            return None;
        };
        let length = self.began[last + 1] - self.began[last];
        Some(last - first + length.checked_div(copy.width()).unwrap_or(0))
    }
}

fn add_steps<'a>(steps: &mut Vec<Step<'a>>, element: &'a Element, state: &State) {
    match element {
        Element::LineStart => steps.push(Step::LineStart),
        Element::LineEnd => steps.push(Step::LineEnd),
        Element::Unit(unit, closure) => {
            if *closure != Closure::ZeroOrMore {
                steps.push(Step::One(OneCopy::of(unit, state)));
            }
            if *closure != Closure::None {
                steps.push(Step::Repeat(OneCopy::of(unit, state)));
            }
        }
    }
}
