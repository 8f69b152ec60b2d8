//! Snapshots: saved in rooms of several sizes, and loaded whole, damaged, of another version or with numbers out of limits.

use super::call::Call;
use super::maker::Maker;
use crate::agent_row::{AgentRow, LAST_AT, POOL_AT, SEQUENCE_AT, SNAPSHOT, VERSION, VERSION_AT};
use crate::limits::{ASKED_MAX, POOL_MAX, SEQUENCE_MAX};
use crate::model::bytes_of_row;

impl Maker {
    /// Of an agent that events led to, only what leaves it so is loaded.
    pub fn snapshot(&mut self, row: &AgentRow, by_hand: bool) -> Call {
        if self.random.percent(40) {
            let places = self.random.pick(&[SNAPSHOT, SNAPSHOT, SNAPSHOT + 3, SNAPSHOT - 1, 0]);
            return Call::Save { places };
        }
        let bytes = match self.random.below(6) {
            0 => bytes_of_row(row),
            1..=2 if by_hand => bytes_of_row(&self.by_hand(row)),
            3 => bytes_of_row(&self.over_a_limit(row)),
            4 => bytes_of_row(&self.other_version(row)),
            _ => {
                let mut bytes = bytes_of_row(row);
                self.damage(&mut bytes);
                bytes
            }
        };
        Call::Load { bytes }
    }

    fn over_a_limit(&mut self, row: &AgentRow) -> AgentRow {
        let mut made = *row;
        let (place, limit) =
            self.random
                .pick(&[(SEQUENCE_AT, SEQUENCE_MAX), (POOL_AT, POOL_MAX), (LAST_AT, ASKED_MAX)]);
        made[place] = limit + 1;
        made
    }

    fn other_version(&mut self, row: &AgentRow) -> AgentRow {
        let mut made = *row;
        made[VERSION_AT] = self.random.pick(&[0, VERSION + 1, u64::MAX]);
        made
    }
}
