//! The report of waits: arrivals in order, each stretch of a title's admissions settling the next of them.

use super::agent::{Agent, Title};
use super::notices::{heed, read_first};
use crate::agent_row::OPEN;
use crate::limits::*;
use crate::refusals::*;
use crate::subject::PlayedLog;

/// Whether a title admits boxes.
pub fn is_admitting(title: &Title) -> bool {
    title.mode == OPEN && title.mark == 0
}

/// The arrivals from `next` on are not settled.
struct Tally<'a> {
    arrivals: &'a [u64],
    next: usize,
    admitted: u64,
    longest: u64,
    sum: u64,
}

impl Tally<'_> {
    /// An opening: who came before it is turned away.
    fn open(&mut self, time: u64) {
        self.next = self.arrivals.partition_point(|arrival| *arrival < time);
        self.admitted = 0;
        self.longest = 0;
        self.sum = 0;
    }

    /// A title stays as it stands until a time: whoever comes up to its last admission before that is settled.
    fn settle(&mut self, title: &Title, until: u64) {
        if !is_admitting(title) {
            return;
        }
        let slot = title.tick_length() << title.slot_bits(title.count);
        let mut admission = title.last;
        while self.next < self.arrivals.len() {
            let arrival = self.arrivals[self.next];
            if admission < arrival {
                admission = title.opened + (arrival - title.opened).div_ceil(slot) * slot;
            }
            if admission >= until {
                return;
            }
            let wait = admission - arrival;
            self.admitted += 1;
            self.longest = self.longest.max(wait);
            self.sum += wait;
            self.next += 1;
        }
    }
}

/// Plays a log into an agent; of the title it tells each event that counts, with the title before it. Whether the log is whole.
pub fn play(agent: &mut Agent, log: &[u8], title: usize, mut told: impl FnMut(&Title, u64, bool)) -> bool {
    let mut place = 0;
    while place < log.len() {
        let Some((notice, size)) = read_first(&log[place..]) else {
            return false;
        };
        place += size;
        if usize::from(notice.title) == title {
            let before = agent.titles[title];
            if heed(agent, &notice) == DONE {
                told(&before, notice.time, notice.is_opening());
            }
        } else {
            heed(agent, &notice);
        }
    }
    true
}

/// 1 10 11.
pub fn waits(log: PlayedLog, arrivals: &[u64]) -> (u8, [u64; 4]) {
    let within = (POOL_MIN..=POOL_MAX).contains(&log.pool) && log.title <= ID_MAX;
    if !within || arrivals.iter().any(|arrival| *arrival > ASKED_MAX) {
        return (OUTSIDE_LIMITS, [0; 4]);
    }
    if arrivals.len() > ARRIVALS_MAX {
        return (WRONG_ROWS, [0; 4]);
    }
    let mut room = [0; ARRIVALS_MAX];
    let sorted = &mut room[..arrivals.len()];
    sorted.copy_from_slice(arrivals);
    sorted.sort_unstable();
    let mut tally = Tally {
        arrivals: sorted,
        next: 0,
        admitted: 0,
        longest: 0,
        sum: 0,
    };
    let mut agent = Agent::fresh(log.pool);
    let whole = play(&mut agent, log.bytes, log.title as usize, |title, time, opening| {
        if opening {
            tally.open(time);
        } else {
            tally.settle(title, time);
        }
    });
    if !whole {
        return (MALFORMED, [0; 4]);
    }
    tally.settle(&agent.titles[log.title as usize], u64::MAX);
    let counts = [arrivals.len() as u64, tally.admitted, tally.longest, tally.sum];
    (DONE, counts)
}
