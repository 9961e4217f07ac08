//! States of both sizes: there and back, and lists from a widened state beside
//! the old engine. There is no archive of the old engine: it is the Rust version's.

use super::changes::{other_size, state_byte, state_place};
use super::{filled, refused, refused_at, taken, told, Group, Trial, OLD};
use crate::engine::{self, OLD_STATE_BYTES, STATE_BYTES};
use crate::form::{old_state_of, state_form, table_form};
use m7_reference::bounds::OLD_ENTRY_BYTES;
use m7_reference::generate::Random;
use m7_reference::line::Engine;
use m7_reference::macros::Macro;
use m7_reference::read::read_after;
use m7_reference::spell::shortest_spelling;
use m7_reference::state::State;

/// Whether the old engine takes a macro.
fn is_old(made: &Macro) -> bool {
    read_after(&shortest_spelling(made), 0, OLD_ENTRY_BYTES).is_ok()
}

/// The bytes of an old state.
fn old_form(state: &State) -> Vec<u8> {
    let mut bytes = vec![0; OLD_STATE_BYTES];
    state_form(state, &mut bytes);
    bytes
}

impl Trial {
    /// The state goes back if it can, and what went back is widened; now and
    /// then with an entry of about 50 or 100 bytes, or with a byte changed. The
    /// state stays.
    pub fn there_and_back(&mut self, random: &mut Random) {
        let kept = self.keep();
        if random.one_in(2) {
            self.put_entry(random);
        }
        if random.one_in(3) {
            self.change_state(random);
        }
        let before = self.state_bytes.clone();
        let went = self.narrow();
        if let Some(old) = &went {
            self.spoil_state();
            self.widen(old);
            self.agree(Group::Widen, self.state.holds(&before), "back and there");
        }
        let mut old = went.unwrap_or_else(|| old_form(&State::fresh_old()));
        let place = state_place(random, OLD_STATE_BYTES);
        old[place] = state_byte(random, place, old[place]);
        if self.widen(&old).number == 0 {
            let again = self.narrow();
            self.agree(Group::Narrow, again.as_ref() == Some(&old), "there and back");
        }
        self.restore(&kept);
    }

    /// Puts a text near one of the bounds into an entry.
    fn put_entry(&mut self, random: &mut Random) {
        let Some(state) = &mut self.plain_state else { return };
        let length = *random.pick(&[49, 50, 51, 52, 99, 100]);
        let (stack, entry) = (random.below(26), random.below(20));
        state.stacks[stack].entries[entry] = vec![b'x'; length];
        state_form(state, &mut self.state_bytes);
        self.state.hold(&self.state_bytes);
    }

    /// Says if two calls together do not give what they should.
    fn agree(&mut self, group: Group, same: bool, what: &str) {
        if !same {
            self.note(group, taken(0), taken(0), same, what);
        }
    }

    /// The old state's bytes, if the state goes back: 2, then 42.
    fn narrow(&mut self) -> Option<Vec<u8>> {
        self.old.hold(&[OLD; OLD_STATE_BYTES]);
        let answer = engine::narrow(self.state.get(), self.old.lend());
        let (expected, bytes) = match self.plain_state.as_ref().map(State::narrow) {
            None => (refused(2), None),
            Some(Err(refusal)) => (refused_at(refusal), None),
            Some(Ok(old)) => (taken(0), Some(old_form(&old))),
        };
        let held = self.old.holds(bytes.as_deref().unwrap_or(&[OLD; OLD_STATE_BYTES]));
        let same = self.state.holds(&self.state_bytes) && held;
        self.note(Group::Narrow, answer, expected, same, "m7_narrow");
        bytes
    }

    /// An old state's bytes become the state: 2 if they are none.
    fn widen(&mut self, old: &[u8]) -> engine::Answer {
        self.old.hold(old);
        let answer = engine::widen(self.old.get(), self.state.lend());
        let expected = match old_state_of(old) {
            None => refused(2),
            Some(state) => {
                let state = state.widen();
                state_form(&state, &mut self.state_bytes);
                self.plain_state = Some(state);
                taken(0)
            }
        };
        let same = self.state.holds(&self.state_bytes) && self.old.holds(old);
        self.note(Group::Widen, answer, expected, same, "m7_widen");
        expected
    }

    /// A list from a widened state, as the old engine answers it: from the state
    /// gone back, or a fresh one, under the macros that the old engine takes. A
    /// line with 16 or 33 from it ends a list and begins another.
    pub fn beside_old(&mut self, lines: &[(u64, Vec<u8>)]) {
        let kept = self.keep();
        let went = self.plain_state.as_ref().and_then(|state| state.narrow().ok());
        let state = went.unwrap_or_else(State::fresh_old);
        let mut table = self.plain_table.clone().unwrap_or_default();
        table.retain(is_old);
        table_form(&table, &mut self.table_bytes);
        self.table.hold(&self.table_bytes);
        self.plain_table = Some(table.clone());
        let mut old = Engine { table, state };
        self.widen(&old_form(&old.state));
        for (budget, line) in lines {
            if !self.as_old(&mut old, (*budget).min(u32::MAX as u64) as u32, line) {
                self.widen(&old_form(&old.state));
            }
        }
        self.restore(&kept);
    }

    /// Feeds a line to the old engine and, unless that says 16 or 33, to the
    /// archive; whether it does not.
    fn as_old(&mut self, old: &mut Engine, budget: u32, line: &[u8]) -> bool {
        let fed = old.feed_traced(line, budget as u64);
        let (text, said) = told(fed.answer);
        if matches!(said.number, 16 | 33) {
            return false;
        }
        self.spoil_trace();
        let answer = self.feed(Group::FeedWidened, budget, line);
        let mut state = vec![0; STATE_BYTES];
        let widened = engine::widen(&old_form(&old.state), &mut state).number == 0;
        let trace = fed.trace.map_or(self.trace.holds(&[OLD; engine::TRACE_BYTES]), |trace| {
            filled(&self.trace, taken(0), &trace)
        });
        let same = widened && trace && self.state.holds(&state);
        let same = same && filled(&self.output, said, &text);
        let same = same && self.plain_table.as_ref() == Some(&old.table) && answer == said;
        self.agree(Group::FeedWidened, same, "the old engine");
        true
    }

    /// A memory for the state that holds none.
    fn spoil_state(&mut self) {
        self.state_bytes.fill(OLD);
        self.state.hold(&self.state_bytes);
        self.plain_state = None;
    }

    /// Both functions with one memory of another size.
    pub fn other_widths(&mut self, random: &mut Random) {
        let old = vec![OLD; OLD_STATE_BYTES];
        self.old.hold(&old);
        for narrow in [false, true] {
            let (mut state_size, mut old_size) = (STATE_BYTES, OLD_STATE_BYTES);
            let size = if random.one_in(2) { &mut state_size } else { &mut old_size };
            *size = other_size(random, *size);
            let (state, lent) = (self.state.lend_other(state_size), self.old.lend_other(old_size));
            let (group, answer) = match narrow {
                true => (Group::SizeNarrow, engine::narrow(state, lent)),
                false => (Group::SizeWiden, engine::widen(lent, state)),
            };
            let same = self.state.holds(&self.state_bytes) && self.old.holds(&old);
            self.note(group, answer, refused(3), same, "a state of another size");
        }
    }
}
