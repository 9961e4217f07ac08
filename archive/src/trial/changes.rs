//! Tables and states with one byte changed, several faults at once, and
//! memories of other sizes.

use super::{refused, Group, Trial, OLD};
use crate::engine::{self, FILE_BYTES, OUTPUT_BYTES, STATE_BYTES, TABLE_BYTES, TRACE_BYTES};
use crate::form::{slot_form, state_of, table_of, HEADER_BYTES, SLOT_BYTES};
use m7_reference::generate::Random;
use std::mem::swap;

/// A place of the table, mostly in a macro or a little behind it.
fn table_place(random: &mut Random, table: &[u8]) -> usize {
    let macros = table.chunks(SLOT_BYTES).take_while(|slot| slot[0] != 0).count();
    if random.one_in(8) || macros == 0 {
        return random.below(TABLE_BYTES);
    }
    let slot = random.below(macros);
    let bytes = &table[SLOT_BYTES * slot..SLOT_BYTES * (slot + 1)];
    let used = bytes.iter().rposition(|byte| *byte != 0).map_or(HEADER_BYTES, |last| last + 2);
    let place = match random.below(4) {
        0 => random.below(HEADER_BYTES),
        1 => random.below(used) | 1,
        _ => random.below(used),
    };
    SLOT_BYTES * slot + place.min(SLOT_BYTES - 1)
}

fn other_byte(random: &mut Random, byte: u8) -> u8 {
    let other = match random.below(4) {
        0 => byte.wrapping_sub(1),
        1 => *random.pick(b"abz19-&(;]~:/{"),
        2 => random.below(256) as u8,
        _ => byte,
    };
    if other == byte {
        return byte.wrapping_add(1);
    }
    other
}

pub fn state_place(random: &mut Random, size: usize) -> usize {
    match random.below(3) {
        0 => random.below(28),
        1 => 28 + random.below(208),
        _ => 236 + random.below(size - 236),
    }
}

/// Another byte at a place of the state, often at the end of what may stand there.
pub fn state_byte(random: &mut Random, place: usize, byte: u8) -> u8 {
    let near: &[u8] = match place {
        0 | 1 => &[0, 1, 2, 255],
        2..=27 => &[0, 1, 2, 19, 20, 21],
        28..=235 if place % 4 == 3 => &[0, 58, 59, 60],
        28..=235 => &[0, 1, 255],
        _ => &[0, 1],
    };
    let other = *random.pick(near);
    if other == byte || random.one_in(2) {
        return other_byte(random, byte);
    }
    other
}

/// A size that is not `size`, at most 64 more.
pub fn other_size(random: &mut Random, size: usize) -> usize {
    match random.below(5) {
        0 => size - 1,
        1 => size + 1,
        2 => random.below(size),
        3 => size + 1 + random.below(64),
        _ => 0,
    }
}

impl Trial {
    /// Another byte in the table, or in one of eight a macro's parts exchanged.
    fn change_table(&mut self, random: &mut Random) {
        if !random.one_in(8) || !self.exchange_parts(random) {
            let place = table_place(random, &self.table_bytes);
            self.table_bytes[place] = other_byte(random, self.table_bytes[place]);
        }
        self.table.hold(&self.table_bytes);
        self.plain_table = table_of(&self.table_bytes);
    }

    /// Exchanges the calls before a macro's pattern and its commands or its
    /// replacement; whether there were any. A tag stored or a text inserted
    /// before a pattern is 1.
    fn exchange_parts(&mut self, random: &mut Random) -> bool {
        let table = self.plain_table.as_deref().unwrap_or_default();
        if table.is_empty() {
            return false;
        }
        let at = random.below(table.len());
        let mut made = table[at].clone();
        let other = if random.one_in(2) { &mut made.commands } else { &mut made.replacement };
        swap(&mut made.before, other);
        let slot = &mut self.table_bytes[SLOT_BYTES * at..SLOT_BYTES * (at + 1)];
        slot.copy_from_slice(&slot_form(&made));
        made != table[at]
    }

    pub fn change_state(&mut self, random: &mut Random) {
        let place = state_place(random, STATE_BYTES);
        self.state_bytes[place] = state_byte(random, place, self.state_bytes[place]);
        self.state.hold(&self.state_bytes);
        self.plain_state = state_of(&self.state_bytes);
    }

    /// Memories that hold neither a table nor a state.
    pub fn spoil(&mut self, random: &mut Random) {
        let byte = 3 + random.below(253) as u8;
        self.table_bytes.fill(byte);
        self.table.hold(&self.table_bytes);
        self.plain_table = None;
        self.state_bytes.fill(byte);
        self.state.hold(&self.state_bytes);
        self.plain_state = None;
    }

    /// Writing out and feeding with the table changed.
    pub fn changed_table(&mut self, random: &mut Random, line: &[u8]) {
        let kept = self.keep();
        self.change_table(random);
        self.write(Group::WriteChanged);
        self.feed(Group::FeedTable, 20, line);
        self.restore(&kept);
    }

    pub fn changed_state(&mut self, random: &mut Random, line: &[u8]) {
        let kept = self.keep();
        self.change_state(random);
        self.feed(Group::FeedState, 20, line);
        self.restore(&kept);
    }

    /// A changed table, a changed state and a budget that is too large, each
    /// or not: 1, 2 and 4 in this order, then 21 or 22.
    pub fn changed_both(&mut self, random: &mut Random, line: &[u8]) {
        let kept = self.keep();
        if random.one_in(2) {
            self.change_table(random);
        }
        if random.one_in(2) {
            self.change_state(random);
        }
        let budget = *random.pick(&[20, 1_000_001]);
        let long = [line, &[*random.pick(b"a\0\n"); 1060]].concat();
        let line = if random.one_in(2) { line } else { &long };
        self.feed(Group::FeedBoth, budget, line);
        self.restore(&kept);
    }

    /// Each function with one memory of another size; all else may be wrong too.
    pub fn other_sizes(&mut self, random: &mut Random, line: &[u8]) {
        let kept = self.keep();
        if random.one_in(3) {
            self.change_table(random);
        }
        self.size_read(random, line);
        self.size_write(random);
        let size = other_size(random, STATE_BYTES);
        let answer = engine::fresh(self.state.lend_other(size));
        let same = self.state.holds(&self.state_bytes);
        self.note(Group::SizeFresh, answer, refused(3), same, "m7_fresh, another size");
        self.size_feed(random, line);
        self.restore(&kept);
    }

    fn size_read(&mut self, random: &mut Random, file: &[u8]) {
        let size = other_size(random, TABLE_BYTES);
        self.line.hold(file);
        let answer = engine::read(self.line.get(), self.table.lend_other(size));
        let same = self.table.holds(&self.table_bytes) && self.line.holds(file);
        self.note(Group::SizeRead, answer, refused(3), same, "m7_read, another size");
    }

    fn size_write(&mut self, random: &mut Random) {
        let (mut table, mut file) = (TABLE_BYTES, FILE_BYTES);
        let size = if random.one_in(2) { &mut table } else { &mut file };
        *size = other_size(random, *size);
        self.file.lend().fill(OLD);
        let answer = engine::write(self.table.lend_other(table), self.file.lend_other(file));
        let same = self.table.holds(&self.table_bytes) && self.file.holds(&[OLD; FILE_BYTES]);
        self.note(Group::SizeWrite, answer, refused(3), same, "m7_write, another size");
    }

    fn size_feed(&mut self, random: &mut Random, line: &[u8]) {
        let mut sizes = [TABLE_BYTES, STATE_BYTES, OUTPUT_BYTES, TRACE_BYTES];
        let which = random.below(4);
        sizes[which] = other_size(random, sizes[which]);
        let budget = *random.pick(&[9, 1_000_001]);
        self.output.lend().fill(OLD);
        let (table, state) = (self.table.lend_other(sizes[0]), self.state.lend_other(sizes[1]));
        let output = self.output.lend_other(sizes[2]);
        let trace = self.trace.lend_other(sizes[3]);
        self.line.hold(line);
        let answer = engine::feed(table, state, self.line.get(), budget, output, trace);
        let same = self.table.holds(&self.table_bytes)
            && self.line.holds(line)
            && self.state.holds(&self.state_bytes)
            && self.output.holds(&[OLD; OUTPUT_BYTES])
            && self.trace.holds(&self.trace_bytes);
        self.note(Group::SizeFeed, answer, refused(3), same, "m7_feed, another size");
    }
}
