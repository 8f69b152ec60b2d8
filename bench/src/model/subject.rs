//! The model as a subject.

use super::events::{Act, Event};
use super::standing::Standing;
use super::story::Story;
use super::{air, logs, notices, planner, plans, questions, salvage, sharing, snapshot, verdicts, waits};
use crate::agent_row::AgentRow;
use crate::limits::{POOL_MAX, POOL_MIN};
use crate::refusals::*;
use crate::subject::{Fields, Film, PlannerRows, PlayedLog, Sharers, Start, StatusRows, Subject};

/// The list of events, and beside it a row that was lent and that no list of its own leads to.
pub struct Model {
    story: Story,
    row: Box<AgentRow>,
    lent: Option<Standing>,
    /// Whether it answers from rows alone, as if each were made by hand.
    by_rows: bool,
}

impl Default for Model {
    fn default() -> Model {
        Model::new()
    }
}

impl Model {
    /// A pool of 0 lanes without titles.
    pub fn new() -> Model {
        let story = Story::fresh(0);
        Model {
            row: Box::new(story.row()),
            story,
            lent: None,
            by_rows: false,
        }
    }

    /// A model that forgets its list and reads every agent as it stands: what the rows keep must be enough.
    pub fn by_rows() -> Model {
        Model {
            by_rows: true,
            ..Model::new()
        }
    }

    fn begin(&mut self, story: Story) {
        *self.row = story.row();
        self.story = story;
        self.lent = self.by_rows.then(|| Standing::of(&self.row));
    }

    /// Whether everything that is kept beside the list follows from it.
    pub fn is_told_by_its_list(&self) -> bool {
        self.story.is_told_by_its_list()
    }

    fn event(&mut self, event: Event) -> u8 {
        if let Some(standing) = &self.lent {
            let (number, next) = verdicts::answer(standing, &event);
            self.lent = next.or(self.lent.take());
            return number;
        }
        let (number, next) = verdicts::answer(&self.story, &event);
        if let Some(story) = next {
            self.begin(story);
        }
        number
    }

    /// A notice in its turn; the sequence moves on where its event is done.
    fn heed(&mut self, fields: &Fields) -> u8 {
        if let Some(standing) = &self.lent {
            let (number, next) = logs::heed(standing, fields);
            if let Some(mut next) = next {
                next.set_sequence(fields[1]);
                self.lent = Some(next);
            }
            return number;
        }
        let (number, next) = logs::heed(&self.story, fields);
        if let Some(mut story) = next {
            story.set_sequence(fields[1]);
            self.begin(story);
        }
        number
    }
}

/// What is asked is answered from the row that was lent, or from the story.
macro_rules! ask {
    ($model:expr, $question:path $(, $argument:expr)*) => {
        match &$model.lent {
            Some(standing) => $question(standing $(, $argument)*),
            None => $question(&$model.story $(, $argument)*),
        }
    };
}

impl Subject for Model {
    fn name(&self) -> &'static str {
        if self.by_rows {
            "model by rows"
        } else {
            "model"
        }
    }

    fn lend(&mut self, row: &AgentRow) {
        self.lent = (self.by_rows || *row != *self.row).then(|| Standing::of(row));
    }

    fn agent(&mut self) -> AgentRow {
        self.lent.as_ref().map_or(*self.row, Standing::row)
    }

    fn fresh(&mut self, pool: u64) -> u8 {
        if !(POOL_MIN..=POOL_MAX).contains(&pool) {
            return OUTSIDE_LIMITS;
        }
        self.begin(Story::fresh(pool));
        DONE
    }

    fn open(&mut self, id: u64, time: u64, film: Film) -> u8 {
        let act = Act::Open(film);
        self.event(Event { id, time, act })
    }

    fn skip(&mut self, id: u64, time: u64, length: u64, count: u64) -> u8 {
        let act = Act::Skip { length, count };
        self.event(Event { id, time, act })
    }

    fn change(&mut self, id: u64, time: u64, count: u64) -> u8 {
        let act = Act::Change { count };
        self.event(Event { id, time, act })
    }

    fn close(&mut self, id: u64, time: u64) -> u8 {
        let act = Act::Close;
        self.event(Event { id, time, act })
    }

    fn hold(&mut self, id: u64, time: u64) -> u8 {
        let act = Act::Hold;
        self.event(Event { id, time, act })
    }

    fn lift(&mut self, id: u64, time: u64) -> u8 {
        let act = Act::Lift;
        self.event(Event { id, time, act })
    }

    fn take(&mut self, bytes: &[u8]) -> u8 {
        let mut fields = [0; 8];
        match notices::read(bytes, &mut fields) {
            DONE => self.heed(&fields),
            number => number,
        }
    }

    fn lane(&mut self, id: u64, lane: u64, time: u64) -> (u8, u64) {
        ask!(self, questions::lane, id, lane, time)
    }

    fn rom_lane(&mut self, id: u64, lane: u64, time: u64) -> (u8, u64) {
        ask!(self, questions::rom_lane, id, lane, time)
    }

    fn held(&mut self, time: u64) -> (u8, u64) {
        ask!(self, questions::held, time)
    }

    fn status(&mut self, time: u64, ids: &[u64], rows: StatusRows) -> u8 {
        ask!(self, questions::status, time, ids, rows)
    }

    fn planner(&mut self, time: u64, rates: &[u32], rows: PlannerRows) -> (u8, u64) {
        ask!(self, planner::planner, time, rates, rows)
    }

    fn plan(&mut self, start: Start, row: &mut [u16]) -> u8 {
        plans::plan(start, row)
    }

    fn rom_plan(&mut self, start: Start, row: &mut [u16]) -> u8 {
        plans::rom_plan(start, row)
    }

    fn rom_fill(&mut self, table: &mut [u16]) -> u8 {
        plans::rom_fill(table)
    }

    fn skip_plan(&mut self, count: u64, arrival: u64, row: &mut [u16]) -> u8 {
        plans::skip_plan(count, arrival, row)
    }

    fn share(&mut self, pool: u64, titles: Sharers, counts: &mut [u32]) -> u8 {
        sharing::share(pool, titles, counts)
    }

    fn write(&mut self, fields: &Fields, room: &mut [u8]) -> (u8, u64) {
        notices::write(fields, room)
    }

    fn read(&mut self, bytes: &[u8], fields: &mut Fields) -> u8 {
        notices::read(bytes, fields)
    }

    fn next(&mut self, log: &[u8], place: u64, fields: &mut Fields) -> (u8, u64) {
        notices::next(log, place, fields)
    }

    fn waits(&mut self, log: PlayedLog, arrivals: &[u64]) -> (u8, [u64; 4]) {
        waits::waits(log, arrivals)
    }

    fn air(&mut self, log: PlayedLog, record: &[u16], row: &mut [u16]) -> (u8, [u64; 3]) {
        air::air(log, record, row)
    }

    fn admissions(&mut self, log: PlayedLog, marks: &mut [u8]) -> u8 {
        air::admissions(log, marks)
    }

    fn salvage(&mut self, log: &[u8], area: &mut [u8], row: &mut [u64]) -> (u8, [u64; 3]) {
        salvage::salvage(log, area, row)
    }

    fn save(&mut self, room: &mut [u8]) -> u8 {
        snapshot::save(&self.agent(), room)
    }

    fn load(&mut self, bytes: &[u8]) -> u8 {
        match snapshot::load(bytes) {
            Ok(row) => {
                self.lend(&row);
                DONE
            }
            Err(number) => number,
        }
    }
}
