//! 01, part 5: a pass of one macro over a line.

use crate::macros::Macro;
use crate::matching::Matcher;
use crate::refusal::Refusal;
use crate::replace::{NewLine, Occurrence};
use crate::state::State;

/// The new line and the number of occurrences. The state moves with them.
pub struct Passed {
    pub line: Vec<u8>,
    pub occurrences: usize,
}

pub fn pass(by: &Macro, line: &[u8], state: &mut State) -> Result<Passed, Refusal> {
    let mut matcher = Matcher::new(&by.pattern, line, state);
    let mut new = NewLine::default();
    let mut occurrences = 0;
    let mut last_end = None;
    let mut place = 0;
    while place <= line.len() {
        let found = matcher.choose(place);
        // An empty match where the match just made ended does not count.
        let counted = found.filter(|found| !(found.is_empty() && last_end == Some(place)));
        let mut next = place;
        if let Some(division) = counted {
            let division = &division;
            Occurrence { line, division }.replace(by, state, &mut new)?;
            matcher = matcher.under(state);
            occurrences += 1;
            last_end = Some(division.end);
            next = division.end;
        }
        // Without a match, or after an empty one, the byte there is copied.
        if next == place {
            new.append(&line[place..line.len().min(place + 1)])?;
            next += 1;
        }
        place = next;
    }
    Ok(Passed { line: new.bytes, occurrences })
}
