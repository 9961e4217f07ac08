//! 02, N5: the words of a line that a word-pattern covers.

use crate::kinds::is_kind;
use crate::line::look_at_line;
use crate::refusal::{Refusal, WORD_PATTERN};

/// How many words are covered, and the place of the first.
#[derive(Clone, Copy, Debug, PartialEq, Eq)]
pub struct Covered {
    pub words: usize,
    pub first: Option<usize>,
}

/// 21 and 22 of the line, then 41 of the word-pattern.
pub fn covered_words(line: &[u8], pattern: &[u8]) -> Result<Covered, Refusal> {
    look_at_line(line)?;
    if !is_word_pattern(pattern) {
        return Err(Refusal::plain(WORD_PATTERN));
    }
    let pieces: Vec<&[u8]> = pattern.split(|byte| *byte == b'-').collect();
    let words = words_of(line);
    let mut places =
        words.into_iter().filter(|(_, word)| covers(&pieces, word)).map(|(place, _)| place);
    let first = places.next();
    Ok(Covered { words: first.is_some() as usize + places.count(), first })
}

/// A letter or digit, as in `?2`.
fn is_word_byte(byte: u8) -> bool {
    is_kind(2, byte)
}

/// Letters, digits and dashes, at least one of them, without two dashes in a row.
fn is_word_pattern(pattern: &[u8]) -> bool {
    let known = |byte: &u8| *byte == b'-' || is_word_byte(*byte);
    !pattern.is_empty() && pattern.iter().all(known) && !pattern.windows(2).any(|two| two == b"--")
}

/// The longest runs of letters and digits, with their places.
fn words_of(line: &[u8]) -> Vec<(usize, &[u8])> {
    let mut words = Vec::new();
    let mut place = 0;
    while place < line.len() {
        let rest = &line[place..];
        let end = rest.iter().position(|byte| !is_word_byte(*byte)).unwrap_or(rest.len());
        if end > 0 {
            words.push((place, &rest[..end]));
        }
        place += end + 1;
    }
    words
}

/// Whether a word is the pieces with any runs between them. The first piece
/// stands at the start and the last at the end; each other one may as well
/// stand as early as it can.
fn covers(pieces: &[&[u8]], word: &[u8]) -> bool {
    let [first, between @ .., last] = pieces else {
        return pieces == [word];
    };
    let Some(mut rest) = word.strip_prefix(*first).and_then(|rest| rest.strip_suffix(*last)) else {
        return false;
    };
    for piece in between {
        match rest.windows(piece.len()).position(|found| found == *piece) {
            Some(place) => rest = &rest[place + piece.len()..],
            None => return false,
        }
    }
    true
}
