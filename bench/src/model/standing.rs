//! An agent that was made by hand, read as it stands (01, "Numbers that calls give back": any other state is read as it
//! stands). No list of events need lead to it, so its numbers are taken at their word: for each count the end of the
//! slot of its latest admission, for each lane the tick of its drop and how many cells it owed then. Everything is
//! looked at tick by tick.

use super::events::{Act, Event};
use super::past::Past;
use super::scheme::Scheme;
use super::seen::{Dropped, Seen};
use super::within::row_in_limits;
use crate::agent_row::{self, AgentRow, ABSENT, CLOSING, OPEN};
use crate::limits::LANES;
use std::rc::Rc;

#[derive(Clone)]
pub struct Standing {
    row: Box<AgentRow>,
    in_limits: bool,
}

impl Standing {
    pub fn of(row: &AgentRow) -> Standing {
        Standing {
            row: Box::new(*row),
            in_limits: row_in_limits(row),
        }
    }

    pub fn row(&self) -> AgentRow {
        *self.row
    }

    pub fn set_sequence(&mut self, sequence: u64) {
        self.row[agent_row::SEQUENCE_AT] = sequence;
    }

    fn number(&self, id: u64, place: usize) -> u64 {
        self.row[agent_row::place(id as usize, place)]
    }

    fn set(&mut self, id: u64, place: usize, number: u64) {
        self.row[agent_row::place(id as usize, place)] = number;
    }

    /// Whether the latest boxes of a count still take a cell at a tick; the slot of their start ended at `end`.
    fn awaits(scheme: &Scheme, count: u64, end: u64, cell: u64, tick: u64) -> bool {
        let taken = scheme.taken_for(count, cell);
        end > 0 && taken.is_some_and(|taken| tick + scheme.slot(count) < end + taken)
    }

    /// Whether a lane owes a tick: its cell holds film, and the boxes of some count that had the lane await it.
    fn owes(&self, id: u64, scheme: &Scheme, lane: u64, tick: u64) -> bool {
        let length = self.number(id, agent_row::LENGTH);
        let cell = scheme.lane_cell(lane, tick);
        let counts = scheme.floor.max(lane + 1)..=scheme.cap;
        let end = |count: u64| self.number(id, agent_row::ENDS + count as usize);
        cell * scheme.tick(length) < length
            && counts
                .into_iter()
                .any(|count| Standing::awaits(scheme, count, end(count), cell, tick))
    }

    fn scheme(&self, id: u64) -> Scheme {
        let number = |place| self.number(id, place);
        Scheme::of(
            number(agent_row::KIND),
            number(agent_row::FLOOR),
            number(agent_row::CAP),
        )
    }

    /// A lane is dropped at a tick, and what it owes is counted.
    fn drop_lane(&mut self, id: u64, scheme: &Scheme, lane: u64, tick: u64) {
        let owed = (tick..tick + scheme.reach()).filter(|t| self.owes(id, scheme, lane, *t));
        let owed = owed.count() as u64;
        self.set(id, agent_row::DROPPED + lane as usize, tick);
        self.set(id, agent_row::OWED + lane as usize, owed);
    }

    /// A title opens: no count has ended and no lane was dropped.
    fn open(&mut self, event: &Event) {
        let (kind, film) = event.act.opening().expect("an opening");
        for place in 0..agent_row::TITLE_SIZE {
            self.set(event.id, place, 0);
        }
        self.set(event.id, agent_row::MODE, OPEN);
        self.set(event.id, agent_row::KIND, kind);
        self.set(event.id, agent_row::OPENED, event.time);
        self.set(event.id, agent_row::LENGTH, film.length);
        self.set(event.id, agent_row::FLOOR, film.floor);
        self.set(event.id, agent_row::CAP, film.cap);
        self.set(event.id, agent_row::COUNT, film.count);
        self.set(event.id, agent_row::TUNED, event.time);
    }

    /// A title turns: the ruling count ends unless the doors were held, and the lanes from the new count up are dropped.
    fn turn(&mut self, event: &Event) {
        let seen = self.title(event.id);
        let tick = seen.tick_at(event.time);
        if !seen.held {
            self.set(event.id, agent_row::ENDS + seen.count as usize, tick);
        }
        let (mode, count, lanes, held) = match event.act {
            Act::Change { count } => (OPEN, count, count, seen.held),
            Act::Close => (CLOSING, seen.count, 0, false),
            Act::Hold => (OPEN, seen.count, seen.count, true),
            _ => (OPEN, seen.count, seen.count, false),
        };
        let scheme = self.scheme(event.id);
        for lane in lanes..seen.count {
            self.drop_lane(event.id, &scheme, lane, tick);
        }
        self.set(event.id, agent_row::MODE, mode);
        self.set(event.id, agent_row::COUNT, count);
        self.set(event.id, agent_row::MARK, u64::from(held));
        if matches!(event.act, Act::Change { .. }) {
            self.set(event.id, agent_row::TUNED, event.time);
        }
    }
}

impl Past for Standing {
    fn in_limits(&self) -> bool {
        self.in_limits
    }

    fn sequence(&self) -> u64 {
        self.row[agent_row::SEQUENCE_AT]
    }

    fn pool(&self) -> u64 {
        self.row[agent_row::POOL_AT]
    }

    fn last(&self) -> u64 {
        self.row[agent_row::LAST_AT]
    }

    fn title(&self, id: u64) -> Rc<Seen> {
        let number = |place| self.number(id, place);
        let mut seen = Seen::absent(number(agent_row::TITLE_LAST));
        seen.mode = number(agent_row::MODE);
        if seen.mode != ABSENT {
            seen.kind = number(agent_row::KIND);
            seen.scheme = Some(self.scheme(id));
            seen.opened = number(agent_row::OPENED);
            seen.length = number(agent_row::LENGTH);
            seen.floor = number(agent_row::FLOOR);
            seen.cap = number(agent_row::CAP);
            seen.count = number(agent_row::COUNT);
            seen.held = number(agent_row::MARK) == 1;
            seen.tuned = number(agent_row::TUNED);
            for lane in 0..LANES {
                seen.lanes[lane] = Dropped {
                    tick: number(agent_row::DROPPED + lane),
                    owed: number(agent_row::OWED + lane),
                };
            }
        }
        Rc::new(seen)
    }

    /// The n-th owed tick from the drop on; where there are not so many, the tick just out of reach.
    fn sent_cell(&self, id: u64, lane: u64, time: u64) -> u64 {
        let seen = self.title(id);
        let scheme = self.scheme(id);
        let from = seen.lanes[lane as usize].tick;
        let nth = seen.tick_at(time).saturating_sub(from);
        let mut owed = (from..from + scheme.reach()).filter(|t| self.owes(id, &scheme, lane, *t));
        let tick = owed.nth(nth as usize).unwrap_or(from + scheme.reach());
        scheme.lane_cell(lane, tick)
    }

    fn after(&self, event: &Event) -> Standing {
        let mut next = self.clone();
        match event.act {
            Act::Open(_) | Act::Skip { .. } => next.open(event),
            _ => next.turn(event),
        }
        next.set(event.id, agent_row::TITLE_LAST, event.time);
        next.row[agent_row::LAST_AT] = event.time;
        next
    }
}
