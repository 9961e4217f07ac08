//! Stored answers about words (02, N5).

use super::{differs, Words};
use crate::refusal::Refusal;
use crate::words::{covered_words, Covered};

#[derive(Clone, Debug, PartialEq, Eq)]
pub enum WordCheck {
    Pattern(Vec<u8>),
    Look(Vec<u8>),
    Answer(Result<Covered, Refusal>),
}

impl WordCheck {
    pub(super) fn parse(word: &str, words: &mut Words) -> Option<WordCheck> {
        Some(match word {
            "word-pattern" => WordCheck::Pattern(words.text()?),
            "look" => WordCheck::Look(words.text()?),
            "covered" => {
                let (count, first) = (words.number()?, words.number()?);
                WordCheck::Answer(Ok(Covered { words: count, first: Some(first) }))
            }
            "none-covered" => WordCheck::Answer(Ok(Covered { words: 0, first: None })),
            "words-refused" => WordCheck::Answer(Err(words.refusal()?)),
            _ => return None,
        })
    }
}

/// The word-pattern, and what the last line looked at gave.
#[derive(Default)]
pub(super) struct Looking {
    pattern: Vec<u8>,
    answer: Option<Result<Covered, Refusal>>,
}

impl Looking {
    pub(super) fn says_instead(&mut self, check: &WordCheck) -> Option<String> {
        match check {
            WordCheck::Pattern(text) => self.pattern = text.clone(),
            WordCheck::Look(line) => self.answer = Some(covered_words(line, &self.pattern)),
            WordCheck::Answer(wanted) => return differs(&self.answer, &Some(*wanted)),
        }
        None
    }
}
