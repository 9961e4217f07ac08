//! The proved engine through its archive, beside the Rust version.

pub mod clock;
pub mod engine;
pub mod files;
pub mod form;
pub mod jobs;
pub mod lent;
pub mod perl;
pub mod picture;
pub mod plan;
pub mod process;
pub mod report;
pub mod stored;
pub mod trial;
