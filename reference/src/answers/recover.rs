//! Stored answers about reading past faults (02, N11).

use super::{differs, Words};
use crate::recover::{recover, Recovered};
use crate::refusal::Refusal;

#[derive(Clone, Debug, PartialEq, Eq)]
pub enum RecoverCheck {
    Kept(usize),
    Refused(Refusal),
    Faults(Vec<Refusal>),
    FaultCount(usize),
}

impl RecoverCheck {
    pub(super) fn parse(word: &str, words: &mut Words) -> Option<RecoverCheck> {
        Some(match word {
            "kept" => RecoverCheck::Kept(words.number()?),
            "recover-refused" => RecoverCheck::Refused(words.refusal()?),
            "fault-count" => RecoverCheck::FaultCount(words.number()?),
            "faults" => {
                let mut faults = Vec::new();
                while !words.rest.is_empty() {
                    faults.push(words.refusal()?);
                }
                RecoverCheck::Faults(faults)
            }
            _ => return None,
        })
    }

    /// What is said instead; with `kept` also what the file is recovered as.
    pub(super) fn said_instead(&self, file: &[u8]) -> (Option<String>, Option<Recovered>) {
        let got = recover(file);
        let faults = got.as_ref().map(|recovered| recovered.faults.as_slice());
        match self {
            RecoverCheck::Kept(n) => {
                let kept = got.as_ref().map(|recovered| recovered.table.len());
                (differs(&kept, &Ok(*n)), got.ok())
            }
            RecoverCheck::Refused(refusal) => (differs(&faults, &Err(refusal)), None),
            RecoverCheck::Faults(wanted) => (differs(&faults, &Ok(wanted)), None),
            RecoverCheck::FaultCount(n) => (differs(&faults.map(<[_]>::len), &Ok(*n)), None),
        }
    }
}
