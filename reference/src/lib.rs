//! An M7 engine written from document 01, with the standard library only.
//!
//! Data flows one way:
//! `macros` (what a macro is), `read` and `write` and `spell` (macro files),
//! `matching` (one division), `replace` (one occurrence), `pass`, `line`,
//! `trace`.
//! `words` looks up the words of a line; `measure` says what a file will take,
//! `recover` reads past faults.
//! `answers`, `generate`, `protocol` and `cases` serve the comparison with
//! other engines.

pub mod answers;
pub mod bounds;
pub mod cases;
pub mod generate;
pub mod kinds;
pub mod line;
pub mod macros;
pub mod matching;
pub mod measure;
pub mod pass;
pub mod protocol;
pub mod read;
pub mod recover;
pub mod refusal;
pub mod replace;
pub mod spell;
pub mod spelling;
pub mod state;
pub mod trace;
pub mod words;
pub mod write;
