//! Each line under its passes, one less and more, and some under 0, 1, the
//! largest budget and one too large, each from the same table and state.

use super::{Group, Trial};
use m7_reference::generate::Random;
use m7_reference::line::Engine;
use m7_reference::macros::Table;
use m7_reference::state::State;

/// With more passes than this a line is seldom tried under the largest budget.
const FEW: u64 = 300;

/// Table and state as they were.
pub struct Kept {
    table: Option<Table>,
    state: Option<State>,
    table_bytes: Vec<u8>,
    state_bytes: Vec<u8>,
}

impl Trial {
    pub fn keep(&self) -> Kept {
        Kept {
            table: self.plain_table.clone(),
            state: self.plain_state.clone(),
            table_bytes: self.table_bytes.clone(),
            state_bytes: self.state_bytes.clone(),
        }
    }

    pub fn restore(&mut self, kept: &Kept) {
        self.plain_table = kept.table.clone();
        self.plain_state = kept.state.clone();
        self.table_bytes.copy_from_slice(&kept.table_bytes);
        self.state_bytes.copy_from_slice(&kept.state_bytes);
        self.table.hold(&kept.table_bytes);
        self.state.hold(&kept.state_bytes);
    }

    /// The passes begun with budget `FEW`.
    fn passes(&self, line: &[u8]) -> Option<u32> {
        let (table, state) = (self.plain_table.clone()?, self.plain_state.clone()?);
        Some(Engine { table, state }.feed(line, FEW).passes as u32)
    }

    /// 02, N10: under the passes the answer, under one less 31, under more the
    /// same answer. A line of more passes than few has 31 only.
    pub fn passes_as_budget(&mut self, random: &mut Random, line: &[u8]) {
        let Some(passes) = self.passes(line) else { return };
        let mut tried = Vec::new();
        if (passes as u64) < FEW {
            let more = passes + 1 + random.below(1_000_000 - passes as usize) as u32;
            tried.extend([(Group::FeedExact, passes), (Group::FeedMore, more)]);
        }
        if passes > 0 {
            tried.push((Group::FeedLess, passes - 1));
        }
        self.each_budget(&tried, line);
    }

    /// 0, 1, the largest and one too large.
    pub fn budgets(&mut self, random: &mut Random, line: &[u8]) {
        let Some(passes) = self.passes(line) else { return };
        let over = *random.pick(&[1_000_001, 1_000_002, 16_777_216, u32::MAX]);
        let mut tried = vec![(Group::FeedNone, 0), (Group::FeedOne, 1), (Group::FeedOver, over)];
        if (passes as u64) < FEW || random.one_in(2_000) {
            tried.push((Group::FeedLarge, 1_000_000));
        }
        self.each_budget(&tried, line);
    }

    /// Each budget once; a line that is taken is undone.
    fn each_budget(&mut self, tried: &[(Group, u32)], line: &[u8]) {
        let kept = self.keep();
        for (group, budget) in tried {
            if self.feed(*group, *budget, line).number == 0 {
                self.restore(&kept);
            }
        }
    }
}
