//! All divisions, listed straight from 01, part 3, and a pass put together
//! from them in the words of demand 3. Slow; for small cases only.

#[allow(dead_code)]
pub mod letters;

use letters::is_kind;
use m7_reference::macros::{Action, Closure, Element, Item, Macro, Move, Sign, Unit};
use m7_reference::matching::Division;
use m7_reference::refusal::Refusal;
use m7_reference::replace::{NewLine, Occurrence};
use m7_reference::state::State;

/// The text of one copy, if `unit` has one of a fixed text.
fn fixed_text(unit: &Unit, state: &State) -> Option<Vec<u8>> {
    match unit {
        Unit::Entry(letter) => {
            let stack = &state.stacks[(letter - b'a') as usize];
            Some(stack.entries[stack.pointer - 1].clone())
        }
        Unit::Value(letter) => {
            Some(format!("{}", state.counters[(letter - b'a') as usize].value).into_bytes())
        }
        _ => None,
    }
}

/// Whether `span` is exactly `copies` copies of the unit.
fn is_copies(unit: &Unit, span: &[u8], copies: usize, state: &State) -> bool {
    if let Some(text) = fixed_text(unit, state) {
        return span == text.repeat(copies);
    }
    span.len() == copies
        && span.iter().all(|byte| match unit {
            Unit::Literal(literal) => literal == byte,
            Unit::Kind(n) => is_kind(*n, *byte),
            Unit::Class(class) => class.holds(*byte),
            _ => false,
        })
}

/// The numbers of copies that an element allows on a line of that length.
fn allowed(unit: &Unit, closure: Closure, length: usize, state: &State) -> Vec<usize> {
    let empty = fixed_text(unit, state).is_some_and(|text| text.is_empty());
    match (closure, empty) {
        (Closure::None, _) | (Closure::OneOrMore, true) => vec![1],
        (Closure::ZeroOrMore, true) => vec![0],
        (Closure::OneOrMore, false) => (1..=length).collect(),
        (Closure::ZeroOrMore, false) => (0..=length).collect(),
    }
}

/// The end of a span, and its repeats if the element has a closure.
type Span = (usize, Option<usize>);

/// All spans that satisfy an element at `start`.
fn spans(element: &Element, line: &[u8], start: usize, state: &State) -> Vec<Span> {
    let (unit, closure) = match element {
        Element::LineStart if start == 0 => return vec![(start, None)],
        Element::LineEnd if start == line.len() => return vec![(start, None)],
        Element::LineStart | Element::LineEnd => return Vec::new(),
        Element::Unit(unit, closure) => (unit, *closure),
    };
    let mut spans = Vec::new();
    for copies in allowed(unit, closure, line.len(), state) {
        for end in start..=line.len() {
            if is_copies(unit, &line[start..end], copies, state) {
                spans.push((end, (closure != Closure::None).then_some(copies)));
            }
        }
    }
    spans
}

/// Every division at a place: the end of each element's span, and the repeats.
fn all_divisions(
    elements: &[&Element],
    line: &[u8],
    start: usize,
    state: &State,
) -> Vec<(Vec<usize>, Vec<usize>)> {
    let Some((first, rest)) = elements.split_first() else {
        return vec![(Vec::new(), Vec::new())];
    };
    let mut divisions = Vec::new();
    for (end, repeats) in spans(first, line, start, state) {
        for (ends, more) in all_divisions(rest, line, end, state) {
            let ends = [vec![end], ends].concat();
            let repeats = repeats.into_iter().chain(more).collect();
            divisions.push((ends, repeats));
        }
    }
    divisions
}

/// The place where the brace at `index` stands, for given ends of elements.
fn brace_place(pattern: &[Item], index: usize, start: usize, ends: &[usize]) -> usize {
    let before = pattern[..index].iter().filter(|item| matches!(item, Item::Element(_))).count();
    if before == 0 {
        start
    } else {
        ends[before - 1]
    }
}

/// The index of the right brace that belongs to the left brace at `index`.
fn right_brace(pattern: &[Item], index: usize) -> usize {
    let mut depth = 0;
    for (at, item) in pattern.iter().enumerate().skip(index) {
        match item {
            Item::Open => depth += 1,
            Item::Close => depth -= 1,
            Item::Element(_) => {}
        }
        if depth == 0 {
            return at;
        }
    }
    panic!("unmatched brace")
}

/// The division with the most repeats at the first closure, then the second.
pub fn chosen(pattern: &[Item], line: &[u8], start: usize, state: &State) -> Option<Division> {
    let elements: Vec<&Element> = pattern
        .iter()
        .filter_map(|item| match item {
            Item::Element(element) => Some(element),
            _ => None,
        })
        .collect();
    let all = all_divisions(&elements, line, start, state);
    let best = all.iter().max_by(|a, b| a.1.cmp(&b.1))?;
    // Two divisions never have the same repeats.
    assert_eq!(all.iter().filter(|other| other.1 == best.1).count(), 1);
    let (ends, repeats) = best.clone();
    let opens = (0..pattern.len()).filter(|index| pattern[*index] == Item::Open);
    let tags = opens.map(|index| {
        let place = |at| brace_place(pattern, at, start, &ends);
        (place(index), place(right_brace(pattern, index)))
    });
    let tags = tags.collect();
    let end = *ends.last().expect("a pattern has an element");
    Some(Division { start, end, tags, repeats })
}

/// The leftmost place from `from` on that has a division which counts.
fn leftmost(
    by: &Macro,
    line: &[u8],
    from: usize,
    just_ended: Option<usize>,
    state: &State,
) -> Option<Division> {
    (from..=line.len()).find_map(|place| {
        let found = chosen(&by.pattern, line, place, state)?;
        let counts = found.end > place || just_ended != Some(place);
        counts.then_some(found)
    })
}

/// A pass: the new line and the number of occurrences.
pub fn pass(by: &Macro, line: &[u8], state: &mut State) -> Result<(Vec<u8>, usize), Refusal> {
    let mut new = NewLine::default();
    let (mut from, mut just_ended, mut occurrences) = (0, None, 0);
    while let Some(division) = leftmost(by, line, from, just_ended, state) {
        new.append(&line[from..division.start])?;
        Occurrence { line, division: &division }.replace(by, state, &mut new)?;
        occurrences += 1;
        just_ended = Some(division.end);
        from = division.end;
        if division.is_empty() {
            if from == line.len() {
                return Ok((new.bytes, occurrences));
            }
            new.append(&line[from..from + 1])?;
            from += 1;
        }
    }
    new.append(&line[from..])?;
    Ok((new.bytes, occurrences))
}

/// The calls before a pattern, each by what it does to the state's fields.
pub fn run_before(by: &Macro, state: &mut State) -> Result<(), Refusal> {
    for call in &by.before {
        match call {
            Action::SetPointer(i, n) => state.stacks[(i - b'a') as usize].pointer = *n,
            Action::SetCounter(i, n) => state.counters[(i - b'a') as usize].value = *n,
            Action::SetIncrement(i, n) => state.counters[(i - b'a') as usize].increment = *n,
            Action::StoreText(i, text, step) => {
                let stack = &mut state.stacks[(i - b'a') as usize];
                let moved = |pointer: usize, sign: Sign| match (sign, pointer) {
                    (Sign::Plus, 20) => Err(Refusal::plain(34)),
                    (Sign::Plus, pointer) => Ok(pointer + 1),
                    (Sign::Minus, 1) => Ok(1),
                    (Sign::Minus, pointer) => Ok(pointer - 1),
                };
                if let Some(Move::Before(sign)) = step {
                    stack.pointer = moved(stack.pointer, *sign)?;
                }
                stack.entries[stack.pointer - 1] = text.clone();
                if let Some(Move::After(sign)) = step {
                    stack.pointer = moved(stack.pointer, *sign)?;
                }
            }
            other => panic!("{other:?} before a pattern"),
        }
    }
    Ok(())
}
