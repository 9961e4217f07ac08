//! Stored answers about what a file will take (02, N8).

use super::Words;
use crate::measure::Plan;
use crate::refusal::Refusal;

/// `takes MACROS ELEMENTS TAGS BYTES`; `takes-unwritten` with NUMBER and PLACE
/// instead of the bytes; `takes-refused NUMBER PLACE`.
pub(super) fn parse(word: &str, words: &mut Words) -> Option<Result<Plan, Refusal>> {
    if word == "takes-refused" {
        return Some(Err(words.refusal()?));
    }
    let (macros, elements, tags) = (words.number()?, words.number()?, words.number()?);
    let bytes = match word {
        "takes" => Ok(words.number()?),
        "takes-unwritten" => Err(words.refusal()?),
        _ => return None,
    };
    Some(Ok(Plan { macros, elements, tags, bytes }))
}
