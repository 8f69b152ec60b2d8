//! Which lane of the pool each lane of a title is sent on: one rule, over the notices alone, for modulator, boxes and receiver.
//!
//! At each notice, in the order of their sequences: first every lane of the pool whose title's lane is no longer held at
//! the notice's time is free; then the event is done; then each lane that its title holds at that time, and has no lane
//! of the pool yet, gets the lowest free one, from the title's lane 0 on. A lane keeps its lane of the pool until it is
//! released. Since lanes held never exceed the pool, one is free.

use crate::library::{Agent, LANES};

const NOBODY: [u8; 2] = [255, 255];

/// For each lane of the pool the title and the lane that have it.
#[derive(Clone, Debug, PartialEq, Eq)]
pub struct Lanes(Vec<[u8; 2]>);

impl Lanes {
    pub fn free(pool: usize) -> Lanes {
        Lanes(vec![NOBODY; pool])
    }

    pub fn of(bytes: &[u8]) -> Lanes {
        Lanes(bytes.chunks_exact(2).map(|pair| [pair[0], pair[1]]).collect())
    }

    pub fn bytes(&self) -> impl Iterator<Item = u8> + '_ {
        self.0.iter().flatten().copied()
    }

    /// Where a title's lane is sent.
    pub fn find(&self, title: u64, lane: usize) -> Option<usize> {
        self.0.iter().position(|owner| *owner == [title as u8, lane as u8])
    }

    /// Before an event at a time: what is not held by then is free.
    pub fn release(&mut self, agent: &Agent, time: u64) {
        for owner in self.0.iter_mut().filter(|owner| **owner != NOBODY) {
            if agent.lane(u64::from(owner[0]), usize::from(owner[1]), time).is_err() {
                *owner = NOBODY;
            }
        }
    }

    /// After an event of a title at a time: what the title holds has a lane of the pool.
    pub fn assign(&mut self, agent: &Agent, title: u64, time: u64) {
        for lane in 0..LANES {
            if agent.lane(title, lane, time).is_ok() && self.find(title, lane).is_none() {
                if let Some(place) = self.0.iter_mut().find(|owner| **owner == NOBODY) {
                    *place = [title as u8, lane as u8];
                }
            }
        }
    }
}

#[cfg(test)]
mod tests {
    use super::*;
    use crate::library::written;

    /// Title 0 has four lanes, drops one that another title then gets.
    #[test]
    fn a_dropped_lane_goes_to_the_next_that_asks() {
        let mut agent = Agent::fresh(6).expect("a pool");
        let mut lanes = Lanes::free(6);
        let events = [[1, 1, 0, 0, 12, 2, 4, 4], [2, 2, 0, 4, 0, 0, 0, 3], [1, 3, 1, 6, 12, 2, 4, 2]];
        for fields in events {
            let notice = written(fields);
            lanes.release(&agent, notice.time);
            agent.take(&notice.bytes).expect("taken");
            lanes.assign(&agent, notice.title, notice.time);
        }
        assert_eq!(lanes.find(0, 2), Some(2));
        assert_eq!(lanes.find(0, 3), None);
        assert_eq!((lanes.find(1, 0), lanes.find(1, 1)), (Some(3), Some(4)));
        assert_eq!(Lanes::of(&lanes.bytes().collect::<Vec<_>>()), lanes);
    }
}
