//! The Rust version's plan of a file in the archive's words.

use crate::engine::Plan;
use m7_reference::measure;
use m7_reference::refusal::Refusal;

pub fn plan_of(measured: &Result<measure::Plan, Refusal>) -> Plan {
    let mut plan = Plan::default();
    match measured {
        Err(refusal) => (plan.number, plan.place) = words(*refusal),
        Ok(found) => {
            plan.macros = found.macros as u32;
            plan.elements = found.elements as u32;
            plan.tags = found.tags as u32;
            match found.bytes {
                Ok(bytes) => plan.bytes = bytes as u32,
                Err(refusal) => (plan.write_number, plan.write_place) = words(refusal),
            }
        }
    }
    plan
}

fn words(refusal: Refusal) -> (u32, u32) {
    (refusal.number as u32, refusal.place as u32)
}
