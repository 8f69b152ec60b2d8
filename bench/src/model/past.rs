//! What an agent's calls are answered from: the list of accepted events, or a row that was made by hand.

use super::events::Event;
use super::seen::Seen;
use crate::limits::{ASKED_MAX, ID_MAX, LANE_MAX, TITLES};
use std::rc::Rc;

pub trait Past: Clone {
    /// Whether every number is within its limits.
    fn in_limits(&self) -> bool;
    /// The sequence of the last accepted notice.
    fn sequence(&self) -> u64;
    fn pool(&self) -> u64;
    /// The time of the last accepted event of any title.
    fn last(&self) -> u64;
    fn title(&self, id: u64) -> Rc<Seen>;
    /// The cell that a sending lane shows at a time.
    fn sent_cell(&self, id: u64, lane: u64, time: u64) -> u64;
    /// What one event more makes of it.
    fn after(&self, event: &Event) -> Self;

    /// How many lanes are held over all titles at a time.
    fn lanes_held(&self, time: u64) -> u64 {
        (0..TITLES as u64).map(|id| self.title(id).lanes_held(time)).sum()
    }

    /// Whether a lane question's numbers are within their limits.
    fn lane_in_limits(&self, id: u64, lane: u64, time: u64) -> bool {
        self.in_limits() && id <= ID_MAX && lane <= LANE_MAX && time <= ASKED_MAX
    }
}
