//! Follows the notices: what modulator, receiver and boxes have in common.
//!
//! Notices are sent out before their time. One agent has *heard*: it takes each notice as it comes, and answers 12 to
//! one that is out of turn. A second agent is the one that is *asked*: it takes the same notices in the same order, each
//! when its time has come, since an agent is not asked about times before its last event. A beat says up to which
//! sequence notices were sent out: whoever has heard that far knows every event up to LEAD ms behind the beat's clock, for
//! the operator enters no event later than that before its time. Up to there it is *covered*.

use crate::lanes::Lanes;
use crate::library::{Agent, Notice, TITLES};
use crate::wire::{Beat, Told};
use std::collections::VecDeque;

/// How long before its time, in ms, a notice is on the air at the latest.
pub const LEAD: u64 = 800;

/// What became of a notice that came.
#[derive(Clone, Copy, Debug, PartialEq, Eq)]
pub enum Heard {
    Taken,
    HadBefore,
    Refused(u8),
}

#[derive(Clone)]
pub struct Follower {
    heard: Agent,
    pub asked: Agent,
    waiting: VecDeque<Notice>,
    pub lanes: Lanes,
    openings: [Option<Notice>; TITLES],
    covered: u64,
    /// As the agents of old: every notice once, in the order in which they come, whatever its sequence.
    old: Option<Vec<Notice>>,
    /// Of an agent of old, notices that were refused at their time, and its answers: it went on.
    pub lost: Vec<(u64, u8)>,
}

impl Follower {
    pub fn fresh(pool: u64, old: bool) -> Result<Follower, u8> {
        let agent = Agent::fresh(pool)?;
        Ok(Follower {
            heard: agent.clone(),
            asked: agent,
            waiting: VecDeque::new(),
            lanes: Lanes::free(pool as usize),
            openings: [const { None }; TITLES],
            covered: 0,
            old: old.then(Vec::new),
            lost: Vec::new(),
        })
    }

    /// The sequence of the last notice that was heard in turn.
    pub fn sequence(&self) -> u64 {
        self.heard.sequence()
    }

    /// Up to which time every event is known.
    pub fn covered(&self) -> u64 {
        match self.old {
            Some(_) => u64::MAX, // it never asks
            None => self.covered,
        }
    }

    pub fn opening(&self, title: u64) -> Option<&Notice> {
        self.openings.get(title as usize)?.as_ref()
    }

    pub fn openings(&self) -> impl Iterator<Item = &Notice> {
        self.openings.iter().flatten()
    }

    /// The time of the next notice that waits for it.
    pub fn next_event(&self) -> Option<u64> {
        self.waiting.front().map(|notice| notice.time)
    }

    pub fn hear(&mut self, notice: &Notice) -> Heard {
        if let Some(had) = &mut self.old {
            if had.contains(notice) {
                return Heard::HadBefore;
            }
            had.push(notice.clone());
        } else {
            if notice.sequence <= self.heard.sequence() {
                return Heard::HadBefore;
            }
            if let Err(refusal) = self.heard.take(&notice.bytes) {
                return Heard::Refused(refusal);
            }
        }
        self.waiting.push_back(notice.clone());
        Heard::Taken
    }

    pub fn beat(&mut self, beat: Beat) {
        if self.heard.sequence() >= beat.last {
            self.covered = self.covered.max(beat.clock + LEAD);
        }
    }

    /// Whether a snapshot was ahead of what was heard, and was taken in its place.
    pub fn load(&mut self, told: &Told) -> bool {
        let Told::Snapshot { agent, lanes, openings } = told else {
            return false;
        };
        let Ok(agent) = Agent::load(agent) else {
            return false;
        };
        if self.old.is_some() || agent.pool() != self.heard.pool() || agent.sequence() <= self.heard.sequence() {
            return false;
        }
        (self.heard, self.asked, self.lanes) = (agent.clone(), agent, lanes.clone());
        self.waiting.clear();
        self.openings = [const { None }; TITLES];
        for notice in openings.iter().filter(|notice| notice.opens() && notice.title < TITLES as u64) {
            self.openings[notice.title as usize] = Some(notice.clone());
        }
        true
    }

    /// The asked agent takes every notice whose time has come.
    pub fn advance(&mut self, time: u64) {
        while self.next_event().is_some_and(|next| next <= time) {
            if let Some(notice) = self.waiting.pop_front() {
                self.turn(notice);
            }
        }
    }

    fn turn(&mut self, notice: Notice) {
        let time = notice.time.max(if self.old.is_some() { self.asked.last() } else { 0 });
        self.lanes.release(&self.asked, time);
        let answer = match self.old {
            Some(_) => self.asked.act(&notice),
            None => self.asked.take(&notice.bytes),
        };
        match answer {
            Ok(()) => self.lanes.assign(&self.asked, notice.title, time),
            Err(refusal) => self.lost.push((notice.sequence, refusal)),
        }
        if answer.is_ok() && notice.opens() {
            let title = notice.title as usize;
            self.openings[title] = Some(notice);
        }
    }
}

#[cfg(test)]
mod tests {
    use super::*;
    use crate::library::{written, OUT_OF_TURN};
    use crate::wire;

    /// A film of 16 cells on three of its lanes; a fourth is raised, and dropped again.
    fn flutter() -> [Notice; 3] {
        [[1, 1, 0, 0, 12, 2, 4, 3], [2, 2, 0, 4, 0, 0, 0, 4], [2, 3, 0, 8, 0, 0, 0, 3]].map(written)
    }

    fn count(follower: &Follower, time: u64) -> u64 {
        follower.asked.status(0, time).expect("a status").count
    }

    #[test]
    fn a_notice_that_overtakes_waits_for_the_one_before() {
        let [opens, raises, drops] = flutter();
        let mut follower = Follower::fresh(8, false).expect("a pool");
        assert_eq!(follower.hear(&opens), Heard::Taken);
        assert_eq!(follower.hear(&drops), Heard::Refused(OUT_OF_TURN));
        follower.beat(Beat { last: 3, clock: 0 });
        assert_eq!(follower.covered(), 0);
        assert_eq!((follower.hear(&raises), follower.hear(&drops)), (Heard::Taken, Heard::Taken));
        follower.beat(Beat { last: 3, clock: 1 });
        assert_eq!(follower.covered(), 1 + LEAD);
        assert_eq!(follower.hear(&raises), Heard::HadBefore);
        follower.advance(4);
        assert_eq!(count(&follower, 4), 4);
        follower.advance(8);
        assert_eq!(count(&follower, 8), 3);
    }

    #[test]
    fn an_agent_of_old_goes_on_with_a_lane_that_is_gone() {
        let [opens, raises, drops] = flutter();
        let mut follower = Follower::fresh(8, true).expect("a pool");
        for notice in [&opens, &drops, &raises, &drops] {
            follower.hear(notice);
        }
        follower.advance(8);
        assert_eq!(follower.lost, [(3, 6)]);
        assert_eq!(count(&follower, 8), 4);
    }

    #[test]
    fn a_snapshot_and_what_came_behind_it_is_the_whole_log() {
        let [opens, raises, drops] = flutter();
        let mut first = Follower::fresh(8, false).expect("a pool");
        for notice in [&opens, &raises] {
            first.hear(notice);
        }
        first.advance(4);
        let beat = Beat { last: 3, clock: 5 };
        let bytes = wire::snapshot(beat, &first.asked.save().expect("saved"), &first.lanes, first.openings());
        let (_, told) = wire::told(&bytes, 8).expect("a snapshot");
        let mut second = Follower::fresh(8, false).expect("a pool");
        assert!(second.load(&told));
        assert!(!second.load(&told));
        for follower in [&mut first, &mut second] {
            assert_eq!(follower.hear(&drops), Heard::Taken);
            follower.advance(8);
        }
        assert!(first.asked == second.asked && first.lanes == second.lanes);
        assert_eq!(first.opening(0), second.opening(0));
    }
}
