//! What a file will take: beside the Rust version, and beside what the archive
//! answers when it reads the file and writes its table out.

use super::{taken, Group, Trial};
use crate::engine::{self, Answer, Plan, FILE_BYTES, TABLE_BYTES};
use crate::form::{HEADER_BYTES, SLOT_BYTES};
use crate::plan::plan_of;
use m7_reference::generate::{bound_written, Random};
use m7_reference::measure::measure;

/// The items of a slot's pattern that are elements: those with codes below a
/// member's, but for the two of braces.
fn elements(slot: &[u8]) -> u32 {
    let length = |at: usize| u16::from_le_bytes([slot[at], slot[at + 1]]) as usize;
    let from = HEADER_BYTES + length(2);
    let items = slot[from..from + length(4)].chunks(2);
    items.filter(|item| (3..32).contains(&item[0])).count() as u32
}

fn tags(slot: &[u8]) -> u32 {
    slot[1] as u32
}

/// By the archive's answers to reading and writing, and the table's bytes.
fn shown(file: &[u8]) -> Plan {
    let (mut table, mut written) = (vec![0; TABLE_BYTES], vec![0; FILE_BYTES]);
    let read = engine::read(file, &mut table);
    if read.number != 0 {
        return Plan { number: read.number, place: read.place, ..Plan::default() };
    }
    let wrote = engine::write(&table, &mut written);
    let most = |of: fn(&[u8]) -> u32| table.chunks(SLOT_BYTES).map(of).max().unwrap_or(0);
    Plan {
        macros: read.length,
        elements: most(elements),
        tags: most(tags),
        bytes: wrote.length,
        write_number: wrote.number,
        write_place: wrote.place,
        ..Plan::default()
    }
}

impl Trial {
    /// Files that are longer when written out.
    pub fn measure_written(&mut self, random: &mut Random) {
        self.measure(&bound_written(random));
    }

    pub fn measure(&mut self, file: &[u8]) {
        self.source.hold(file);
        let plan = engine::measure(self.source.get());
        let expected = plan_of(&measure(file));
        let same = plan == expected && plan == shown(file) && self.source.holds(file);
        let answer = |plan: Plan| Answer { number: plan.number, place: plan.place, ..taken(0) };
        self.unwritten += (plan.write_number != 0) as u64;
        let what = || format!("m7_measure: {plan:?}, Rust {expected:?}, read {:?}", shown(file));
        let what = if same { String::new() } else { what() };
        self.note(Group::Measure, answer(plan), answer(expected), same, &what);
    }
}
