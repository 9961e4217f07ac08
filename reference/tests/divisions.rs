//! The matcher against all divisions, listed straight from 01, part 3.

#[allow(dead_code)]
mod naive;

use m7_reference::generate::{any_pattern, Random};
use m7_reference::matching::Matcher;
use m7_reference::state::State;
use naive::chosen;

const CASES: usize = 200_000;

fn any_state(random: &mut Random) -> State {
    let mut state = State::fresh();
    for letter in [b'a', b'b', b'z'] {
        let text: &[&[u8]] = &[b"", b"a", b"ab", b"aa", b"1", b"ba"];
        let stack = state.stack_mut(letter);
        stack.pointer = 1 + random.below(2);
        stack.entries[stack.pointer - 1] = random.pick(text).to_vec();
        state.counter_mut(letter).value = *random.pick(&[1, 11, 2, 21]);
    }
    state
}

fn small_line(random: &mut Random) -> Vec<u8> {
    let length = random.below(8);
    (0..length).map(|_| *random.pick(b"aaaabb1-\xe9\xd7")).collect()
}

#[test]
fn matcher_chooses_among_all_divisions() {
    let mut random = Random::new(1);
    let mut matched = 0;
    for case in 0..CASES {
        let pattern = any_pattern(&mut random, false);
        let state = any_state(&mut random);
        let line = small_line(&mut random);
        let mut matcher = Matcher::new(&pattern, &line, &state);
        for place in 0..=line.len() {
            let wanted = chosen(&pattern, &line, place, &state);
            matched += wanted.is_some() as usize;
            let got = matcher.choose(place);
            assert_eq!(got, wanted, "case {case}: {pattern:?} at {place} of {line:?}");
        }
    }
    println!("{CASES} patterns and lines, {matched} places with a division");
    assert!(matched > CASES / 2);
}
