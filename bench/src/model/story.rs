//! The whole list of accepted events, from which everything is answered.

use super::events::Event;
use super::life::Life;
use super::past::Past;
use super::seen::{Dropped, Seen};
use crate::agent_row::{self, AgentRow, CLOSING, OPEN};
use crate::limits::{COUNTS, LANES, TITLES};
use std::rc::Rc;

#[derive(Clone)]
pub struct Story {
    pool: u64,
    sequence: u64,
    events: Vec<Event>,
    /// What the list says of each title, worked out once for each event.
    lives: [Option<Told>; TITLES],
}

/// A title's life, and what the refusals see of it.
#[derive(Clone)]
struct Told {
    life: Rc<Life>,
    seen: Rc<Seen>,
}

impl Story {
    /// A fresh agent of a pool.
    pub fn fresh(pool: u64) -> Story {
        Story {
            pool,
            sequence: 0,
            events: Vec::new(),
            lives: Default::default(),
        }
    }

    pub fn set_sequence(&mut self, sequence: u64) {
        self.sequence = sequence;
    }

    /// The title's life since its latest opening in the list.
    pub fn life(&self, id: u64) -> Option<&Rc<Life>> {
        self.lives[id as usize].as_ref().map(|told| &told.life)
    }

    /// The life of a title by the list alone.
    fn life_by_list(events: &[Event], id: u64) -> Option<Life> {
        let own: Vec<&Event> = events.iter().filter(|event| event.id == id).collect();
        let opened = own.iter().rposition(|event| event.act.opening().is_some())?;
        let life = Life::opening(own[opened])?;
        Some(own[opened + 1..].iter().fold(life, |life, event| life.with(event)))
    }

    /// Whether what is kept of each title is what the list says.
    pub fn is_told_by_its_list(&self) -> bool {
        (0..TITLES as u64).all(|id| {
            let listed = Story::life_by_list(&self.events, id);
            match (listed, self.life(id)) {
                (None, None) => true,
                (Some(a), Some(b)) => {
                    a.turns == b.turns && a.opened == b.opened && a.last == b.last && a.tuned == b.tuned
                }
                _ => false,
            }
        })
    }

    /// The agent as a row: what its numbers mean, counted from the list.
    pub fn row(&self) -> AgentRow {
        let mut row = agent_row::fresh(self.pool);
        row[agent_row::SEQUENCE_AT] = self.sequence;
        row[agent_row::LAST_AT] = self.last();
        for id in 0..TITLES {
            if let Some(told) = &self.lives[id] {
                let from = agent_row::place(id, 0);
                write_title(told, &mut row[from..from + agent_row::TITLE_SIZE]);
            }
        }
        row
    }
}

/// A title's numbers in their places.
fn write_title(told: &Told, row: &mut [u64]) {
    let Told { life, seen } = told;
    row[agent_row::MODE] = seen.mode;
    row[agent_row::KIND] = seen.kind;
    row[agent_row::OPENED] = seen.opened;
    row[agent_row::LENGTH] = seen.length;
    row[agent_row::FLOOR] = seen.floor;
    row[agent_row::CAP] = seen.cap;
    row[agent_row::COUNT] = seen.count;
    row[agent_row::MARK] = u64::from(seen.held);
    row[agent_row::TITLE_LAST] = seen.last;
    row[agent_row::TUNED] = seen.tuned;
    for count in 1..COUNTS.min(life.scheme.cap as usize + 1) {
        row[agent_row::ENDS + count] = life.end_of(count as u64);
    }
    for lane in 0..LANES {
        row[agent_row::DROPPED + lane] = seen.lanes[lane].tick;
        row[agent_row::OWED + lane] = seen.lanes[lane].owed;
    }
}

/// A life as the refusals see it.
fn seen_of(life: &Life) -> Seen {
    let latest = life.latest();
    let mut lanes = [Dropped::default(); LANES];
    for (lane, dropped) in lanes.iter_mut().enumerate() {
        if let Some(tick) = life.dropped(lane as u64) {
            let owed = life.owed(lane as u64).len() as u64;
            *dropped = Dropped { tick, owed };
        }
    }
    Seen {
        mode: if latest.count == 0 { CLOSING } else { OPEN },
        kind: life.kind,
        scheme: Some(life.scheme.clone()),
        opened: life.opened,
        length: life.length,
        floor: life.scheme.floor,
        cap: life.scheme.cap,
        count: life.count(),
        held: latest.held,
        last: life.last,
        tuned: life.tuned,
        lanes,
    }
}

impl Past for Story {
    fn in_limits(&self) -> bool {
        // only accepted events are in the list
        true
    }

    fn sequence(&self) -> u64 {
        self.sequence
    }

    fn pool(&self) -> u64 {
        self.pool
    }

    fn last(&self) -> u64 {
        self.events.last().map_or(0, |event| event.time)
    }

    fn title(&self, id: u64) -> Rc<Seen> {
        let told = self.lives[id as usize].as_ref();
        told.map_or_else(|| Rc::new(Seen::absent(0)), |told| Rc::clone(&told.seen))
    }

    fn sent_cell(&self, id: u64, lane: u64, time: u64) -> u64 {
        let life = self.life(id).expect("a title that sends was opened");
        let at = life.dropped(lane).expect("a lane that sends was dropped");
        let owed = life.owed(lane);
        let nth = life.tick_at(time) - at;
        life.scheme.lane_cell(lane, owed[nth as usize])
    }

    fn after(&self, event: &Event) -> Story {
        let mut story = self.clone();
        story.events.push(*event);
        let slot = &mut story.lives[event.id as usize];
        let life = Life::opening(event).unwrap_or_else(|| {
            let open = slot.as_ref().expect("a title that turns was opened");
            open.life.with(event)
        });
        let seen = Rc::new(seen_of(&life));
        let life = Rc::new(life);
        *slot = Some(Told { life, seen });
        story
    }
}
