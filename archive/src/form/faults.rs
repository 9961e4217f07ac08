//! Faults: their count, then number and place of each, zeros behind.

use crate::engine::FAULTS_BYTES;
use m7_reference::refusal::Refusal;

pub fn faults_form(faults: &[Refusal]) -> Vec<u8> {
    let words = faults.iter().flat_map(|fault| [fault.number as u32, fault.place as u32]);
    let words = [faults.len() as u32].into_iter().chain(words);
    let mut bytes: Vec<u8> = words.flat_map(u32::to_le_bytes).collect();
    bytes.resize(FAULTS_BYTES, 0);
    bytes
}
