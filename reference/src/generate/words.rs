//! Lines and word-patterns of a few letters.

use super::{Random, HIGH};

/// A word of up to 6 letters, mostly of two sorts.
fn any_word(random: &mut Random) -> Vec<u8> {
    let length = 1 + random.below(6);
    (0..length).map(|_| *random.pick(b"AAABBBb1\xe9")).collect()
}

/// Words with separators between them, seldom with a byte that is refused.
fn any_line(random: &mut Random) -> Vec<u8> {
    let mut line = Vec::new();
    for _ in 0..random.below(6) {
        line.extend(any_word(random));
        line.push(*random.pick(b"   --,'$_\xd7"));
        if random.one_in(40) {
            line.push(*random.pick(b"\0\n"));
        }
        if random.one_in(60) {
            line.extend(vec![*random.pick(b"A "); 1_035 + random.below(30)]);
        }
    }
    line
}

/// A word-pattern: a word with dashes put in, and sometimes a byte too many.
fn any_word_pattern(random: &mut Random) -> Vec<u8> {
    let mut pattern = any_word(random);
    pattern.truncate(random.below(5));
    for _ in 0..random.below(4) {
        let place = random.below(pattern.len() + 1);
        let beside = [place.wrapping_sub(1), place].map(|at| pattern.get(at) == Some(&b'-'));
        if beside == [false, false] || random.one_in(20) {
            pattern.insert(place, b'-');
        }
    }
    if random.one_in(20) {
        pattern.insert(random.below(pattern.len() + 1), *random.pick(HIGH));
    }
    if random.one_in(60) {
        pattern.insert(random.below(pattern.len() + 1), *random.pick(b"_ \0\n*"));
    }
    pattern
}

/// A line and a word-pattern for it.
pub fn any_look(random: &mut Random) -> (Vec<u8>, Vec<u8>) {
    (any_line(random), any_word_pattern(random))
}
