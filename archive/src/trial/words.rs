//! Words looked up.

use super::{refused_at, taken, Group, Trial};
use crate::engine::{self, Answer};
use m7_reference::generate::{any_look, Random};
use m7_reference::protocol::hex;
use m7_reference::words::covered_words;

impl Trial {
    /// A line and a word-pattern.
    pub fn look(&mut self, random: &mut Random) {
        let (line, pattern) = any_look(random);
        self.line.hold(&line);
        self.pattern.hold(&pattern);
        let answer = engine::words(self.line.get(), self.pattern.get());
        let expected = match covered_words(&line, &pattern) {
            Ok(found) => Answer { place: found.first.unwrap_or(0) as u32, ..taken(found.words) },
            Err(refusal) => refused_at(refusal),
        };
        let same = self.line.holds(&line) && self.pattern.holds(&pattern);
        let what = format!("m7_words, line {}, word-pattern {}", hex(&line), hex(&pattern));
        self.note(Group::Words, answer, expected, same, &what);
    }
}
