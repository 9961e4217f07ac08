//! 01, part 4: the replacement and the commands of one occurrence.

use crate::bounds::LINE_BYTES;
use crate::macros::{Action, Macro, Move};
use crate::matching::Division;
use crate::refusal::{Refusal, NEW_LINE_TOO_LONG, STORED_TAG};
use crate::state::State;

/// The line that a pass makes, from the left. Its 1,055th byte is 32.
#[derive(Default)]
pub struct NewLine {
    pub bytes: Vec<u8>,
}

impl NewLine {
    pub fn append(&mut self, text: &[u8]) -> Result<(), Refusal> {
        if self.bytes.len() + text.len() > LINE_BYTES {
            return Err(Refusal::plain(NEW_LINE_TOO_LONG));
        }
        self.bytes.extend_from_slice(text);
        Ok(())
    }
}

/// What an occurrence reads: the line before the pass, and its division.
pub struct Occurrence<'a> {
    pub line: &'a [u8],
    pub division: &'a Division,
}

impl<'a> Occurrence<'a> {
    fn tag(&self, n: usize) -> &'a [u8] {
        let (start, end) = self.division.tags[n - 1];
        &self.line[start..end]
    }

    /// Replacement and then commands act, each from left to right.
    pub fn replace(&self, by: &Macro, state: &mut State, new: &mut NewLine) -> Result<(), Refusal> {
        for action in by.replacement.iter().chain(&by.commands) {
            self.act(action, state, new)?;
        }
        Ok(())
    }

    fn act(&self, action: &Action, state: &mut State, new: &mut NewLine) -> Result<(), Refusal> {
        match action {
            Action::Literal(byte) => new.append(&[*byte])?,
            Action::Tag(n) => new.append(self.tag(*n))?,
            Action::Entry(i, step) => {
                move_before(state, *i, *step)?;
                new.append(state.stack(*i).entry())?;
                move_after(state, *i, *step)?;
            }
            Action::StoreTag(n, i, step) => {
                move_before(state, *i, *step)?;
                store_tag(state, *i, self.tag(*n))?;
                move_after(state, *i, *step)?;
            }
            Action::Value(i, step) => insert_value(state, *i, *step, new)?,
            Action::Divided(i, n) => {
                let value = state.counter(*i).value;
                new.append(format!("{} {}", value / n, value % n).as_bytes())?;
            }
            needs_no_occurrence => set(needs_no_occurrence, state)?,
        }
        Ok(())
    }
}

/// The calls before a pattern act, from left to right.
pub fn run_calls(calls: &[Action], state: &mut State) -> Result<(), Refusal> {
    calls.iter().try_for_each(|call| set(call, state))
}

/// An action that inserts nothing and reads no tag.
fn set(action: &Action, state: &mut State) -> Result<(), Refusal> {
    match action {
        Action::StoreText(i, text, step) => {
            move_before(state, *i, *step)?;
            state.stack_mut(*i).store(text);
            move_after(state, *i, *step)?;
        }
        Action::SetPointer(i, n) => state.stack_mut(*i).pointer = *n,
        Action::SetCounter(i, n) => state.counter_mut(*i).value = *n,
        Action::SetIncrement(i, n) => state.counter_mut(*i).increment = *n,
        _ => {}
    }
    Ok(())
}

fn move_before(state: &mut State, letter: u8, step: Option<Move>) -> Result<(), Refusal> {
    match step {
        Some(Move::Before(sign)) => state.stack_mut(letter).move_pointer(sign),
        _ => Ok(()),
    }
}

fn move_after(state: &mut State, letter: u8, step: Option<Move>) -> Result<(), Refusal> {
    match step {
        Some(Move::After(sign)) => state.stack_mut(letter).move_pointer(sign),
        _ => Ok(()),
    }
}

fn store_tag(state: &mut State, letter: u8, text: &[u8]) -> Result<(), Refusal> {
    if text.len() > state.entry_bytes {
        return Err(Refusal::plain(STORED_TAG));
    }
    state.stack_mut(letter).store(text);
    Ok(())
}

fn insert_value(
    state: &mut State,
    letter: u8,
    step: Option<Move>,
    new: &mut NewLine,
) -> Result<(), Refusal> {
    if let Some(Move::Before(sign)) = step {
        state.counter_mut(letter).move_value(sign)?;
    }
    new.append(&state.counter(letter).digits())?;
    if let Some(Move::After(sign)) = step {
        state.counter_mut(letter).move_value(sign)?;
    }
    Ok(())
}
