//! A state: flags, pointers, values, increments, entries. An old state has
//! entries of 50 bytes.

use m7_reference::state::State;

const VALUES: usize = 28;
const INCREMENTS: usize = VALUES + 4 * 26;
const ENTRIES: usize = INCREMENTS + 4 * 26;

/// Puts a state's form where `bytes` held any state's of its size.
pub fn state_form(state: &State, bytes: &mut [u8]) {
    assert_eq!(bytes.len(), state.memory_bytes());
    bytes[0] = state.trace as u8;
    bytes[1] = state.nflag as u8;
    for (i, stack) in state.stacks.iter().enumerate() {
        bytes[2 + i] = stack.pointer as u8;
        for (j, entry) in stack.entries.iter().enumerate() {
            let start = ENTRIES + state.entry_bytes * (20 * i + j);
            bytes[start..start + entry.len()].copy_from_slice(entry);
            bytes[start + entry.len()..start + state.entry_bytes].fill(0);
        }
    }
    for (i, counter) in state.counters.iter().enumerate() {
        let put = |bytes: &mut [u8], at: usize, n: u64| {
            bytes[at..at + 4].copy_from_slice(&(n as u32).to_le_bytes());
        };
        put(bytes, VALUES + 4 * i, counter.value);
        put(bytes, INCREMENTS + 4 * i, counter.increment);
    }
}

/// The state that bytes are the form of: 01's bounds, field by field.
pub fn state_of(bytes: &[u8]) -> Option<State> {
    fields_of(bytes, State::fresh())
}

/// The old state that bytes are the form of.
pub fn old_state_of(bytes: &[u8]) -> Option<State> {
    fields_of(bytes, State::fresh_old())
}

fn fields_of(bytes: &[u8], mut state: State) -> Option<State> {
    let entry_bytes = state.entry_bytes;
    if bytes.len() != state.memory_bytes() || bytes[0] > 1 || bytes[1] > 1 {
        return None;
    }
    (state.trace, state.nflag) = (bytes[0] == 1, bytes[1] == 1);
    for (i, stack) in state.stacks.iter_mut().enumerate() {
        stack.pointer = Some(bytes[2 + i] as usize).filter(|n| (1..=20).contains(n))?;
        for (j, entry) in stack.entries.iter_mut().enumerate() {
            let start = ENTRIES + entry_bytes * (20 * i + j);
            *entry = entry_of(&bytes[start..start + entry_bytes])?;
        }
    }
    for (i, counter) in state.counters.iter_mut().enumerate() {
        counter.value = number(bytes, VALUES + 4 * i)?;
        counter.increment = number(bytes, INCREMENTS + 4 * i)?;
    }
    Some(state)
}

/// A text without byte 0, and zeros behind it.
fn entry_of(bytes: &[u8]) -> Option<Vec<u8>> {
    let end = bytes.iter().position(|byte| *byte == 0).unwrap_or(bytes.len());
    bytes[end..].iter().all(|byte| *byte == 0).then(|| bytes[..end].to_vec())
}

fn number(bytes: &[u8], at: usize) -> Option<u64> {
    let n = u32::from_le_bytes(bytes[at..at + 4].try_into().ok()?) as u64;
    (1..=999_999_999).contains(&n).then_some(n)
}
