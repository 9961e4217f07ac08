//! Files read past their faults: beside the Rust version, and beside what the
//! archive answers when it plainly reads what is left of the file.

use super::changes::other_size;
use super::{refused, refused_at, taken, Group, Trial, OLD};
use crate::engine::{self, FAULTS_BYTES, TABLE_BYTES};
use crate::form::{faults_form, table_form};
use m7_reference::generate::{bound_faults, broken_file, Random};
use m7_reference::recover::recover;
use m7_reference::refusal::Refusal;

/// Of a file with more faults only the first are read plainly.
const PLAIN: usize = 8;

/// Whether the archive, reading from each resuming place on, refuses with the
/// next fault's number at its place; without faults, whether it reads that table.
fn as_read(file: &[u8], faults: &[Refusal], table: &[u8]) -> bool {
    let mut other = vec![0; TABLE_BYTES];
    if faults.is_empty() {
        return engine::read(file, &mut other).number == 0 && other == table;
    }
    let mut from = 0;
    for fault in faults.iter().take(PLAIN) {
        let answer = engine::read(&file[from..], &mut other);
        if answer != refused_at(Refusal::at(fault.number, fault.place - from)) {
            return false;
        }
        let end = file[fault.place..].iter().position(|byte| *byte == b';');
        from = end.map_or(file.len(), |end| fault.place + end + 1);
    }
    true
}

impl Trial {
    /// A broken file, onto whatever the table memory holds.
    pub fn recover(&mut self, random: &mut Random) {
        let near_a_bound = random.one_in(20);
        let file = if near_a_bound { bound_faults(random) } else { broken_file(random) };
        self.recover_file(&file);
        if random.one_in(16) {
            self.size_recover(random, &file);
        }
    }

    pub fn recover_file(&mut self, file: &[u8]) {
        self.source.hold(file);
        self.faults.lend().fill(OLD);
        let (table, faults) = (self.table.lend(), self.faults.lend());
        let answer = engine::recover(self.source.get(), table, faults);
        let (expected, faults, plain) = match recover(file) {
            Ok(recovered) => {
                table_form(&recovered.table, &mut self.table_bytes);
                let length = recovered.table.len();
                self.plain_table = Some(recovered.table);
                self.faults_found += recovered.faults.len() as u64;
                let plain = as_read(file, &recovered.faults, &self.table_bytes);
                (taken(length), faults_form(&recovered.faults), plain)
            }
            Err(refusal) => (refused_at(refusal), vec![OLD; FAULTS_BYTES], true),
        };
        let same = self.source.holds(file)
            && self.table.holds(&self.table_bytes)
            && self.faults.holds(&faults);
        self.note(Group::Recover, answer, expected, same && plain, "m7_recover");
    }

    fn size_recover(&mut self, random: &mut Random, file: &[u8]) {
        let mut sizes = [TABLE_BYTES, FAULTS_BYTES];
        let which = random.below(2);
        sizes[which] = other_size(random, sizes[which]);
        self.source.hold(file);
        self.faults.lend().fill(OLD);
        let (table, faults) = (self.table.lend_other(sizes[0]), self.faults.lend_other(sizes[1]));
        let answer = engine::recover(self.source.get(), table, faults);
        let same = self.table.holds(&self.table_bytes)
            && self.faults.holds(&[OLD; FAULTS_BYTES])
            && self.source.holds(file);
        self.note(Group::SizeRecover, answer, refused(3), same, "m7_recover, another size");
    }
}
