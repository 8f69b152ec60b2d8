//! The planner: wishes by the sharing, and each at its time, by the releases of the lanes that still send.

use super::agent::{Agent, Title};
use super::sharing::Shares;
use crate::agent_row::{ABSENT, OPEN};
use crate::limits::*;
use crate::refusals::*;
use crate::subject::PlannerRows;

/// Stands for every time past the clock.
const PAST: u64 = EVENT_TIME_MAX + 1;

/// The changes that are wished for: the drops first, then the raises, each lowest id first.
struct Wishes {
    many: usize,
    ids: [u64; TITLES],
    times: [u64; TITLES],
    counts: [u64; TITLES],
}

fn takes_part(title: &Title) -> bool {
    title.mode == OPEN && !title.is_steady()
}

/// What is left to share above the floors of the titles that take part; none where they exceed it.
fn spare(agent: &Agent) -> Option<u64> {
    let steady = agent.titles.iter().filter(|t| t.is_steady());
    let apart: u64 = steady.map(Title::ruling).sum();
    let floors: u64 = agent.titles.iter().filter(|t| takes_part(t)).map(|t| t.floor).sum();
    agent.pool.saturating_sub(apart).checked_sub(floors)
}

impl Wishes {
    fn of(agent: &Agent, rates: &[u32], spare: u64) -> Wishes {
        let mut shares = Shares::none();
        for (title, rate) in agent.titles.iter().zip(rates) {
            if takes_part(title) {
                shares.join(u64::from(*rate), title.length, title.floor, title.cap);
            }
        }
        let shares = shares.give(spare);
        let mut wishes = Wishes {
            many: 0,
            ids: [0; TITLES],
            times: [0; TITLES],
            counts: [0; TITLES],
        };
        wishes.pass(agent, shares, |count, share| share < count);
        wishes.pass(agent, shares, |count, share| count < share);
        wishes
    }

    fn pass(&mut self, agent: &Agent, shares: &[u64], moves: impl Fn(u64, u64) -> bool) {
        let part = agent.titles.iter().enumerate().filter(|(_, title)| takes_part(title));
        for ((id, title), share) in part.zip(shares) {
            if moves(title.count, *share) {
                self.ids[self.many] = id as u64;
                self.counts[self.many] = *share;
                self.many += 1;
            }
        }
    }
}

/// The titles as the events listed so far leave them, and each one's tick in ms.
struct Now {
    agent: Agent,
    tick_lengths: [u64; TITLES],
}

impl Now {
    fn of(agent: &Agent) -> Now {
        let mut tick_lengths = [1; TITLES];
        for (length, title) in tick_lengths.iter_mut().zip(&agent.titles) {
            if title.mode != ABSENT {
                *length = title.tick_length();
            }
        }
        Now {
            agent: agent.clone(),
            tick_lengths,
        }
    }

    /// The first time from another on at which no more than the pool is held: as many releases as are too many.
    fn free_from(&self, from: u64) -> u64 {
        let mut releases = [0; TITLES * LANES];
        let mut sending = 0;
        let mut held = 0;
        for (title, tick_length) in self.agent.titles.iter().zip(self.tick_lengths) {
            if title.mode == ABSENT {
                continue;
            }
            let active = title.ruling();
            held += active;
            for lane in active as usize..title.cap as usize {
                // a list that goes past the clock is cut there, so that the product fits
                let ticks = (title.dropped[lane] + title.owed[lane]).min(PAST);
                let release = title.opened + ticks * tick_length;
                if ticks > 0 && from < release {
                    releases[sending] = release;
                    sending += 1;
                }
            }
        }
        let excess = (held + sending as u64).saturating_sub(self.agent.pool) as usize;
        if excess == 0 {
            return from;
        }
        if excess > sending {
            return PAST;
        }
        *releases[..sending].select_nth_unstable(excess - 1).1
    }

    /// When a title changes to a count, at the earliest from a time on; the change is made.
    fn change(&mut self, id: usize, count: u64, from: u64) -> u64 {
        let title = self.agent.titles[id];
        let tick_length = self.tick_lengths[id];
        let mut from = from;
        if title.count < count {
            // a raise drops no lane: it asks for the same lanes whenever it comes
            self.agent.titles[id].count = count;
            from = self.free_from(from).min(PAST);
        }
        let due = due_at(&title, tick_length, count, from);
        let tick = title.moment(tick_length, due).tick;
        self.agent.titles[id] = title.changed(tick_length, tick, due, count);
        due
    }
}

/// The first slot start from a time on; times up to the opening are slot starts.
fn slot_start_from(title: &Title, slot: u64, from: u64) -> u64 {
    match from.saturating_sub(title.opened) % slot {
        0 => from,
        over => from + (slot - over),
    }
}

/// The earliest time from another on at which a title's rules permit a change to a count.
fn due_at(title: &Title, tick_length: u64, count: u64, from: u64) -> u64 {
    let slot = tick_length << title.slot_bits(count.min(title.count));
    let start = slot_start_from(title, slot, from.max(title.settled_at(tick_length)));
    let due = if start == title.last {
        slot_start_from(title, slot, start + 1)
    } else {
        start
    };
    due.min(PAST)
}

/// One wish after the other, in the state that those before it leave; whether all lie within the clock.
fn time_wishes(agent: &Agent, time: u64, wishes: &mut Wishes) -> bool {
    let mut now = Now::of(agent);
    let mut from = time;
    for at in 0..wishes.many {
        from = now.change(wishes.ids[at] as usize, wishes.counts[at], from);
        if from == PAST {
            return false;
        }
        wishes.times[at] = from;
    }
    true
}

/// 1 2 9 10 18.
pub fn planner(agent: &Agent, time: u64, rates: &[u32], rows: PlannerRows) -> (u8, u64) {
    let rated = rates.iter().all(|r| (RATE_MIN..=RATE_MAX).contains(&u64::from(*r)));
    if !agent.in_limits() || time > EVENT_TIME_MAX || !rated {
        return (OUTSIDE_LIMITS, 0);
    }
    if time < agent.last {
        return (TOO_EARLY, 0);
    }
    let Some(spare) = spare(agent) else {
        return (NO_LANES, 0);
    };
    if rates.len() != TITLES {
        return (WRONG_ROWS, 0);
    }
    let mut wishes = Wishes::of(agent, rates, spare);
    let many = wishes.many;
    if rows.ids.len() < many || rows.times.len() < many || rows.counts.len() < many {
        return (WRONG_ROWS, 0);
    }
    if !time_wishes(agent, time, &mut wishes) {
        return (PAST_CLOCK, 0);
    }
    rows.ids[..many].copy_from_slice(&wishes.ids[..many]);
    rows.times[..many].copy_from_slice(&wishes.times[..many]);
    rows.counts[..many].copy_from_slice(&wishes.counts[..many]);
    (DONE, many as u64)
}
