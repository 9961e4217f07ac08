//! The state: 26 stacks, 26 counters and two flags.

use crate::bounds::{COUNTER_END, ENTRIES, ENTRY_BYTES, LETTERS, OLD_ENTRY_BYTES};
use crate::macros::Sign;
use crate::refusal::{Refusal, COUNTER_PAST_END, LONG_ENTRY, POINTER_PAST_END};
use std::array::from_fn;
use std::fmt;

/// The pointer counts from 1.
#[derive(Clone, Debug, PartialEq, Eq)]
pub struct Stack {
    pub pointer: usize,
    pub entries: [Vec<u8>; ENTRIES],
}

#[derive(Clone, Debug, PartialEq, Eq)]
pub struct Counter {
    pub value: u64,
    pub increment: u64,
}

#[derive(Clone, Debug, PartialEq, Eq)]
pub struct State {
    /// How many bytes an entry may have, and so a call's text in `$MACRO`: 100,
    /// in a state of the old engine 50 (02, N6).
    pub entry_bytes: usize,
    pub stacks: [Stack; LETTERS],
    pub counters: [Counter; LETTERS],
    pub trace: bool,
    pub nflag: bool,
}

impl Stack {
    /// The current entry.
    pub fn entry(&self) -> &[u8] {
        &self.entries[self.pointer - 1]
    }

    pub fn store(&mut self, text: &[u8]) {
        self.entries[self.pointer - 1] = text.to_vec();
    }

    /// Past 20 is 34; below 1 is 1.
    pub fn move_pointer(&mut self, sign: Sign) -> Result<(), Refusal> {
        match sign {
            Sign::Plus if self.pointer == ENTRIES => {
                return Err(Refusal::plain(POINTER_PAST_END));
            }
            Sign::Plus => self.pointer += 1,
            Sign::Minus => self.pointer = (self.pointer - 1).max(1),
        }
        Ok(())
    }
}

impl Counter {
    pub fn digits(&self) -> Vec<u8> {
        self.value.to_string().into_bytes()
    }

    /// By the increment: past its end is 35; below 1 is 1.
    pub fn move_value(&mut self, sign: Sign) -> Result<(), Refusal> {
        match sign {
            Sign::Plus if self.value + self.increment > COUNTER_END => {
                return Err(Refusal::plain(COUNTER_PAST_END));
            }
            Sign::Plus => self.value += self.increment,
            Sign::Minus => self.value = self.value.saturating_sub(self.increment).max(1),
        }
        Ok(())
    }
}

impl State {
    pub fn fresh() -> State {
        State {
            entry_bytes: ENTRY_BYTES,
            stacks: from_fn(|_| Stack { pointer: 1, entries: from_fn(|_| Vec::new()) }),
            counters: from_fn(|_| Counter { value: 1, increment: 1 }),
            trace: false,
            nflag: false,
        }
    }

    /// A fresh state of the old engine.
    pub fn fresh_old() -> State {
        State { entry_bytes: OLD_ENTRY_BYTES, ..State::fresh() }
    }

    /// The new state that an old one becomes.
    pub fn widen(&self) -> State {
        State { entry_bytes: ENTRY_BYTES, ..self.clone() }
    }

    /// The old state that a new one becomes; 42 if an entry is over 50.
    pub fn narrow(&self) -> Result<State, Refusal> {
        let mut entries = self.stacks.iter().flat_map(|stack| &stack.entries);
        if entries.any(|entry| entry.len() > OLD_ENTRY_BYTES) {
            return Err(Refusal::plain(LONG_ENTRY));
        }
        Ok(State { entry_bytes: OLD_ENTRY_BYTES, ..self.clone() })
    }

    /// The bytes of its memory: the flags, the pointers, value and increment of
    /// four bytes each, and the entries.
    pub fn memory_bytes(&self) -> usize {
        2 + LETTERS * (1 + 2 * 4 + ENTRIES * self.entry_bytes)
    }

    pub fn stack(&self, letter: u8) -> &Stack {
        &self.stacks[(letter - b'a') as usize]
    }

    pub fn stack_mut(&mut self, letter: u8) -> &mut Stack {
        &mut self.stacks[(letter - b'a') as usize]
    }

    pub fn counter(&self, letter: u8) -> &Counter {
        &self.counters[(letter - b'a') as usize]
    }

    pub fn counter_mut(&mut self, letter: u8) -> &mut Counter {
        &mut self.counters[(letter - b'a') as usize]
    }
}

/// What differs from the fresh state, in a fixed order, in one line:
/// `T1 N1 pa=3 ea3=6162 ca=5 ia=2`, or `fresh`.
impl fmt::Display for State {
    fn fmt(&self, f: &mut fmt::Formatter) -> fmt::Result {
        let mut words = Vec::new();
        if self.trace {
            words.push("T1".to_string());
        }
        if self.nflag {
            words.push("N1".to_string());
        }
        for letter in b'a'..=b'z' {
            stack_words(letter as char, self.stack(letter), &mut words);
        }
        for letter in b'a'..=b'z' {
            counter_words(letter as char, self.counter(letter), &mut words);
        }
        if words.is_empty() {
            words.push("fresh".to_string());
        }
        f.write_str(&words.join(" "))
    }
}

fn stack_words(letter: char, stack: &Stack, words: &mut Vec<String>) {
    if stack.pointer != 1 {
        words.push(format!("p{letter}={}", stack.pointer));
    }
    for (index, entry) in stack.entries.iter().enumerate() {
        if !entry.is_empty() {
            words.push(format!("e{letter}{}={}", index + 1, crate::protocol::hex(entry)));
        }
    }
}

fn counter_words(letter: char, counter: &Counter, words: &mut Vec<String>) {
    if counter.value != 1 {
        words.push(format!("c{letter}={}", counter.value));
    }
    if counter.increment != 1 {
        words.push(format!("i{letter}={}", counter.increment));
    }
}
