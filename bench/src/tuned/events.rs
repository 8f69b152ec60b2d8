//! The six events. `*_checked` of a call is what it does once the agent's numbers were tested.

use super::agent::{Agent, Title};
use super::grid::Moment;
use crate::agent_row::{CLOSING, OPEN, PADDED, STEADY};
use crate::limits::*;
use crate::refusals::*;
use crate::subject::Film;

/// The last places of the orders, once an agent is known to be within its limits.
pub fn open_checked(agent: &mut Agent, id: u64, time: u64, film: Film) -> u8 {
    let Film {
        length,
        floor,
        cap,
        count,
    } = film;
    let within = id <= ID_MAX
        && time <= EVENT_TIME_MAX
        && (LENGTH_MIN..=LENGTH_MAX).contains(&length)
        && (FLOOR_MIN..=FLOOR_MAX).contains(&floor)
        && (COUNT_MIN..=COUNT_MAX).contains(&cap)
        && (COUNT_MIN..=COUNT_MAX).contains(&count);
    if !within {
        return OUTSIDE_LIMITS;
    }
    if time < agent.last {
        return TOO_EARLY;
    }
    if agent.titles[id as usize].is_there(time) {
        return ID_TAKEN;
    }
    if cap < floor {
        return FLOOR_ABOVE_CAP;
    }
    if count < floor {
        return BELOW_FLOOR;
    }
    if cap < count {
        return ABOVE_CAP;
    }
    settle(
        agent,
        id,
        time,
        &Title::opened(PADDED, time, [length, floor, cap, count]),
    )
}

pub fn skip_checked(agent: &mut Agent, id: u64, time: u64, length: u64, count: u64) -> u8 {
    let within = id <= ID_MAX
        && time <= EVENT_TIME_MAX
        && (LENGTH_MIN..=LENGTH_MAX).contains(&length)
        && (COUNT_MIN..=STEADY_MAX).contains(&count);
    if !within {
        return OUTSIDE_LIMITS;
    }
    if time < agent.last {
        return TOO_EARLY;
    }
    if agent.titles[id as usize].is_there(time) {
        return ID_TAKEN;
    }
    settle(
        agent,
        id,
        time,
        &Title::opened(STEADY, time, [length, count, count, count]),
    )
}

/// An event that only lanes may refuse.
fn settle(agent: &mut Agent, id: u64, time: u64, next: &Title) -> u8 {
    let others = agent.titles.iter().enumerate().filter(|(i, _)| *i as u64 != id);
    let held: u64 = others.map(|(_, title)| title.lanes_held(time)).sum();
    if agent.pool < held + next.lanes_held(time) {
        return NO_LANES;
    }
    agent.titles[id as usize] = *next;
    agent.last = time;
    DONE
}

/// 1 2 3 5 of an event that is no opening.
#[inline]
fn standing(agent: &Agent, id: u64, time: u64) -> u8 {
    if id > ID_MAX || time > EVENT_TIME_MAX {
        return OUTSIDE_LIMITS;
    }
    if time < agent.last {
        return TOO_EARLY;
    }
    let title = &agent.titles[id as usize];
    if title.mode == OPEN {
        return DONE;
    }
    if title.lanes_held(time) == 0 {
        return NOT_THERE;
    }
    IS_CLOSING
}

pub fn change_checked(agent: &mut Agent, id: u64, time: u64, count: u64) -> u8 {
    if !(COUNT_MIN..=COUNT_MAX).contains(&count) {
        return OUTSIDE_LIMITS;
    }
    let first = standing(agent, id, time);
    if first != DONE {
        return first;
    }
    let title = &agent.titles[id as usize];
    let tick_length = title.tick_length();
    let moment = title.moment(tick_length, time);
    let number = change_verdict(title, tick_length, moment, time, count);
    if number != DONE {
        return number;
    }
    let next = title.changed(tick_length, moment.tick, time, count);
    settle(agent, id, time, &next)
}

/// 19 13 14 6 7 16 8.
fn change_verdict(title: &Title, tick_length: u64, moment: Moment, time: u64, count: u64) -> u8 {
    if title.is_steady() {
        return IS_STEADY;
    }
    if count < title.floor {
        return BELOW_FLOOR;
    }
    if title.cap < count {
        return ABOVE_CAP;
    }
    if count == title.count {
        return UNCHANGED;
    }
    if time == title.last {
        return SECOND_EVENT;
    }
    if time < title.settled_at(tick_length) {
        return TOO_SOON;
    }
    if !title.starts_slot(moment, count.min(title.count)) {
        return NOT_AT_SLOT;
    }
    DONE
}

pub fn close_checked(agent: &mut Agent, id: u64, time: u64) -> u8 {
    let first = standing(agent, id, time);
    if first != DONE {
        return first;
    }
    let title = &mut agent.titles[id as usize];
    if time == title.last {
        return SECOND_EVENT;
    }
    let tick_length = title.tick_length();
    let moment = title.moment(tick_length, time);
    if !title.starts_slot(moment, title.floor) {
        return NOT_AT_SLOT;
    }
    title.end_count(moment.tick);
    title.drop_lanes(moment.tick, tick_length, 0);
    title.mode = CLOSING;
    title.mark = 0;
    title.last = time;
    agent.last = time;
    DONE
}

/// A hold, or a lift.
pub fn doors_checked(agent: &mut Agent, id: u64, time: u64, held: bool) -> u8 {
    let first = standing(agent, id, time);
    if first != DONE {
        return first;
    }
    let title = &mut agent.titles[id as usize];
    if title.is_steady() {
        return IS_STEADY;
    }
    if held == (title.mark == 1) {
        return DOORS_UNCHANGED;
    }
    if time == title.last {
        return SECOND_EVENT;
    }
    let moment = title.moment(title.tick_length(), time);
    if !title.starts_slot(moment, title.count) {
        return NOT_AT_SLOT;
    }
    title.end_count(moment.tick);
    title.mark = u64::from(held);
    title.last = time;
    agent.last = time;
    DONE
}

impl Title {
    /// From when on the title may change again.
    #[inline]
    pub fn settled_at(&self, tick_length: u64) -> u64 {
        self.tuned + (tick_length << self.slot_bits(self.floor))
    }

    /// The title once its count has changed at a time, which lies in a tick.
    pub fn changed(&self, tick_length: u64, tick: u64, time: u64, count: u64) -> Title {
        let mut next = *self;
        next.end_count(tick);
        if count < self.count {
            next.drop_lanes(tick, tick_length, count);
        }
        next.count = count;
        next.last = time;
        next.tuned = time;
        next
    }

    /// The ruling count ends at a tick; while the doors are held it has ended already.
    #[inline]
    fn end_count(&mut self, tick: u64) {
        if self.mark == 0 {
            self.ends[self.count as usize] = tick;
        }
    }
}
