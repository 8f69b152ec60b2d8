//! One title's life since its latest opening: what its events say of counts, doors, admissions and drops (01, "Events";
//! 02, requests 7 and 9).

use super::events::{Act, Event};
use super::owed;
use super::scheme::Scheme;
use std::cell::RefCell;
use std::rc::Rc;

/// From a tick on a count rules, 0 once the title is closing, and the doors are held or not.
#[derive(Clone, Copy, Debug, PartialEq, Eq)]
pub struct Turn {
    pub tick: u64,
    pub count: u64,
    pub held: bool,
}

/// The owed ticks of a lane that was dropped at a tick.
type List = (u64, u64, Rc<Vec<u64>>);

#[derive(Clone)]
pub struct Life {
    pub kind: u64,
    pub scheme: Scheme,
    pub opened: u64,
    pub length: u64,
    pub turns: Vec<Turn>,
    /// The times of the latest event, and of the latest opening or change.
    pub last: u64,
    pub tuned: u64,
    /// Lists that were worked out before: what is owed at a drop hangs on the past alone.
    lists: RefCell<Vec<List>>,
}

impl Life {
    pub fn opening(event: &Event) -> Option<Life> {
        let (kind, film) = event.act.opening()?;
        Some(Life {
            kind,
            scheme: Scheme::of(kind, film.floor, film.cap),
            opened: event.time,
            length: film.length,
            turns: vec![Turn {
                tick: 0,
                count: film.count,
                held: false,
            }],
            last: event.time,
            tuned: event.time,
            lists: RefCell::new(Vec::new()),
        })
    }

    /// The life with one event more that is no opening.
    pub fn with(&self, event: &Event) -> Life {
        let mut life = self.clone();
        let now = self.latest();
        let (count, held) = match event.act {
            Act::Change { count } => (count, now.held),
            Act::Close => (0, false),
            Act::Hold => (now.count, true),
            Act::Lift => (now.count, false),
            Act::Open(_) | Act::Skip { .. } => unreachable!("an opening begins a life"),
        };
        let tick = self.tick_at(event.time);
        life.turns.push(Turn { tick, count, held });
        life.last = event.time;
        if matches!(event.act, Act::Change { .. }) {
            life.tuned = event.time;
        }
        life
    }

    pub fn latest(&self) -> Turn {
        *self.turns.last().expect("a life begins with its opening")
    }

    /// The count that it has, or had when it closed.
    pub fn count(&self) -> u64 {
        let ruled = self.turns.iter().rev().find(|turn| turn.count > 0);
        ruled.expect("a title opens with a count").count
    }

    pub fn tick_length(&self) -> u64 {
        self.scheme.tick(self.length)
    }

    /// The tick that holds a time.
    pub fn tick_at(&self, time: u64) -> u64 {
        time.saturating_sub(self.opened) / self.tick_length()
    }

    /// A cell holds film when the cell times the tick is less than the length.
    pub fn holds_film(&self, cell: u64) -> bool {
        cell * self.tick_length() < self.length
    }

    /// What rules at a tick.
    pub fn turn_at(&self, tick: u64) -> Turn {
        let begun = self.turns.iter().rev().find(|turn| turn.tick <= tick);
        *begun.expect("tick 0 belongs to the opening")
    }

    /// The count under which a tick admits boxes: a slot start of the ruling count while the title is open, not closing
    /// and its doors are not held.
    pub fn admits(&self, tick: u64) -> Option<u64> {
        let turn = self.turn_at(tick);
        let open = turn.count > 0 && !turn.held;
        (open && tick.is_multiple_of(self.scheme.slot(turn.count))).then_some(turn.count)
    }

    /// The tick at which a lane was last dropped.
    pub fn dropped(&self, lane: u64) -> Option<u64> {
        let drops = self.turns.windows(2).rev();
        let mut of_lane = drops.filter(|pair| pair[1].count <= lane && lane < pair[0].count);
        of_lane.next().map(|pair| pair[1].tick)
    }

    /// The ticks that a lane owed when it was last dropped; none where it never was.
    pub fn owed(&self, lane: u64) -> Rc<Vec<u64>> {
        let Some(at) = self.dropped(lane) else {
            return Rc::new(Vec::new());
        };
        let known = self
            .lists
            .borrow()
            .iter()
            .find(|list| list.0 == lane && list.1 == at)
            .map(|list| Rc::clone(&list.2));
        known.unwrap_or_else(|| {
            let ticks = Rc::new(owed::owed_ticks(self, lane, at));
            self.lists.borrow_mut().push((lane, at, Rc::clone(&ticks)));
            ticks
        })
    }

    /// For each count that no longer rules the end of the slot of its latest admission before it ended, 0 where there was
    /// none: what a row keeps of the admissions.
    pub fn end_of(&self, count: u64) -> u64 {
        let width = self.scheme.slot(count);
        let ended = self.turns.windows(2).rev();
        let mut admissions = ended
            .filter(|pair| pair[0].count == count && !pair[0].held && pair[0].tick < pair[1].tick)
            .filter_map(|pair| {
                let latest = (pair[1].tick - 1) / width * width;
                (pair[0].tick <= latest).then_some(latest)
            });
        admissions.next().map_or(0, |latest| latest + width)
    }
}
