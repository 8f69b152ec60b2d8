//! The product as a customer links it: the calls of include/rongalishu.h that a run needs, over plain Rust values.
//! A refusal is its number; nothing that was lent has changed then.

mod raw {
    extern "C" {
        pub fn rl_fresh_row(agent: *mut u64, agent_len: usize, pool: u64) -> u8;
        pub fn rl_take_row(agent: *mut u64, agent_len: usize, bytes: *const u8, bytes_len: usize) -> u8;
        pub fn rl_open_row(
            agent: *mut u64,
            agent_len: usize,
            id: u64,
            time: u64,
            length: u64,
            floor: u64,
            cap: u64,
            count: u64,
        ) -> u8;
        pub fn rl_skip_row(agent: *mut u64, agent_len: usize, id: u64, time: u64, length: u64, count: u64) -> u8;
        pub fn rl_change_row(agent: *mut u64, agent_len: usize, id: u64, time: u64, count: u64) -> u8;
        pub fn rl_close_row(agent: *mut u64, agent_len: usize, id: u64, time: u64) -> u8;
        pub fn rl_hold_row(agent: *mut u64, agent_len: usize, id: u64, time: u64) -> u8;
        pub fn rl_lift_row(agent: *mut u64, agent_len: usize, id: u64, time: u64) -> u8;
        pub fn rl_lane_row(
            agent: *const u64,
            agent_len: usize,
            id: u64,
            lane: u64,
            time: u64,
            cell: *mut u64,
            cell_len: usize,
        ) -> u8;
        pub fn rl_status_row(
            agent: *const u64,
            agent_len: usize,
            time: u64,
            ids: *const u64,
            ids_len: usize,
            counts: *mut u64,
            counts_len: usize,
            held: *mut u64,
            held_len: usize,
            marks: *mut u64,
            marks_len: usize,
        ) -> u8;
        pub fn rl_plan_row(floor: u64, cap: u64, count: u64, arrival: u64, row: *mut u16, row_len: usize) -> u8;
        pub fn rl_skip_plan_row(count: u64, arrival: u64, row: *mut u16, row_len: usize) -> u8;
        pub fn rl_next_row(
            log: *const u8,
            log_len: usize,
            place: *mut u64,
            place_len: usize,
            fields: *mut u64,
            fields_len: usize,
        ) -> u8;
        pub fn rl_save_row(agent: *const u64, agent_len: usize, room: *mut u8, room_len: usize) -> u8;
        pub fn rl_load_row(agent: *mut u64, agent_len: usize, bytes: *const u8, bytes_len: usize) -> u8;
        pub fn rl_air_row(
            pool: u64,
            title: u64,
            log: *const u8,
            log_len: usize,
            record: *const u16,
            record_len: usize,
            row: *mut u16,
            row_len: usize,
            report: *mut u64,
            report_len: usize,
        ) -> u8;
        pub fn rl_admissions_row(
            pool: u64,
            title: u64,
            log: *const u8,
            log_len: usize,
            marks: *mut u8,
            marks_len: usize,
        ) -> u8;
    }
    #[cfg(test)]
    extern "C" {
        pub fn rl_write_row(
            fields: *const u64,
            fields_len: usize,
            room: *mut u8,
            room_len: usize,
            written: *mut u64,
            written_len: usize,
        ) -> u8;
    }
}

pub const LANES: usize = 12;
pub const TITLES: usize = 16;
pub const PLAN_PLACES: usize = 4_096;
/// In a plan a cell that is never taken, in a record a lane that shows nothing.
pub const NOTHING: u16 = 65_535;
pub const SNAPSHOT_BYTES: usize = 6_052;
/// The most ticks that a record may have.
pub const TICKS_MAX: usize = 4_096;
/// A notice's sequence is not the next.
pub const OUT_OF_TURN: u8 = 12;
const AGENT_NUMBERS: usize = 756;
const SEQUENCE_AT: usize = 1;
const POOL_AT: usize = 2;
const LAST_AT: usize = 3;

pub type Answer<T> = Result<T, u8>;

fn done<T>(answer: u8, value: T) -> Answer<T> {
    match answer {
        0 => Ok(value),
        refusal => Err(refusal),
    }
}

// --- notices ---

#[derive(Clone, Copy, Debug, PartialEq, Eq)]
pub enum Kind {
    Opens,
    Changes,
    Closes,
    Holds,
    Lifts,
    OpensSkip,
}

/// A notice's fields, and its bytes beside them.
#[derive(Clone, Debug, PartialEq, Eq)]
pub struct Notice {
    pub kind: Kind,
    pub sequence: u64,
    pub title: u64,
    pub time: u64,
    pub length: u64,
    pub floor: u64,
    pub cap: u64,
    pub count: u64,
    pub bytes: Vec<u8>,
}

impl Notice {
    fn of(fields: [u64; 8], bytes: &[u8]) -> Option<Notice> {
        let kinds = [Kind::Opens, Kind::Changes, Kind::Closes, Kind::Holds, Kind::Lifts, Kind::OpensSkip];
        let kind = *kinds.get((fields[0] as usize).checked_sub(1)?)?;
        let [_, sequence, title, time, length, floor, cap, count] = fields;
        let bytes = bytes.to_vec();
        Some(Notice { kind, sequence, title, time, length, floor, cap, count, bytes })
    }

    /// The notice that begins at a place of a log, and the place behind it; none at the end, or where it is not whole.
    pub fn next(log: &[u8], from: usize) -> Option<(Notice, usize)> {
        let (mut place, mut fields) = (from as u64, [0; 8]);
        // SAFETY: each pointer and its length are those of one row that lives while the call runs
        let answer = unsafe { raw::rl_next_row(log.as_ptr(), log.len(), &mut place, 1, fields.as_mut_ptr(), 8) };
        let after = place as usize;
        if answer != 0 {
            return None;
        }
        Some((Notice::of(fields, &log[from..after])?, after))
    }

    /// All notices of a log, up to the first place that has none.
    pub fn all(log: &[u8]) -> Vec<Notice> {
        let (mut found, mut place) = (Vec::new(), 0);
        while let Some((notice, after)) = Notice::next(log, place) {
            found.push(notice);
            place = after;
        }
        found
    }

    pub fn opens(&self) -> bool {
        matches!(self.kind, Kind::Opens | Kind::OpensSkip)
    }
}

// --- the agent ---

/// What a title's status says.
#[derive(Clone, Copy, Debug, PartialEq, Eq)]
pub struct Standing {
    pub count: u64,
    pub held: u64,
    pub doors_held: bool,
}

/// Plain data: it is copied, stored and compared.
#[derive(Clone, PartialEq, Eq)]
pub struct Agent(Box<[u64; AGENT_NUMBERS]>);

// SAFETY of every call below: a pointer and its length are those of one row, which lives and is not shared while it runs
impl Agent {
    pub fn fresh(pool: u64) -> Answer<Agent> {
        let mut agent = Agent(Box::new([0; AGENT_NUMBERS]));
        let answer = unsafe { raw::rl_fresh_row(agent.0.as_mut_ptr(), AGENT_NUMBERS, pool) };
        done(answer, agent)
    }

    pub fn sequence(&self) -> u64 {
        self.0[SEQUENCE_AT]
    }

    pub fn pool(&self) -> u64 {
        self.0[POOL_AT]
    }

    /// The time of the last accepted event.
    pub fn last(&self) -> u64 {
        self.0[LAST_AT]
    }

    pub fn take(&mut self, bytes: &[u8]) -> Answer<()> {
        done(unsafe { raw::rl_take_row(self.0.as_mut_ptr(), AGENT_NUMBERS, bytes.as_ptr(), bytes.len()) }, ())
    }

    /// A notice's event without its sequence, as the agents of old took it.
    pub fn act(&mut self, notice: &Notice) -> Answer<()> {
        let (row, n) = (self.0.as_mut_ptr(), AGENT_NUMBERS);
        let Notice { title, time, length, floor, cap, count, .. } = *notice;
        let answer = unsafe {
            match notice.kind {
                Kind::Opens => raw::rl_open_row(row, n, title, time, length, floor, cap, count),
                Kind::OpensSkip => raw::rl_skip_row(row, n, title, time, length, count),
                Kind::Changes => raw::rl_change_row(row, n, title, time, count),
                Kind::Closes => raw::rl_close_row(row, n, title, time),
                Kind::Holds => raw::rl_hold_row(row, n, title, time),
                Kind::Lifts => raw::rl_lift_row(row, n, title, time),
            }
        };
        done(answer, ())
    }

    /// The cell that a lane of a title shows.
    pub fn lane(&self, title: u64, lane: usize, time: u64) -> Answer<u64> {
        let (row, mut cell) = (self.0.as_ptr(), 0);
        let answer = unsafe { raw::rl_lane_row(row, AGENT_NUMBERS, title, lane as u64, time, &mut cell, 1) };
        done(answer, cell)
    }

    pub fn status(&self, title: u64, time: u64) -> Answer<Standing> {
        let (row, mut count, mut held, mut mark) = (self.0.as_ptr(), 0, 0, 0);
        let answer = unsafe {
            raw::rl_status_row(row, AGENT_NUMBERS, time, &title, 1, &mut count, 1, &mut held, 1, &mut mark, 1)
        };
        done(answer, Standing { count, held, doors_held: mark != 0 })
    }

    pub fn save(&self) -> Answer<Vec<u8>> {
        let mut bytes = vec![0; SNAPSHOT_BYTES];
        let answer = unsafe { raw::rl_save_row(self.0.as_ptr(), AGENT_NUMBERS, bytes.as_mut_ptr(), bytes.len()) };
        done(answer, bytes)
    }

    pub fn load(bytes: &[u8]) -> Answer<Agent> {
        let mut agent = Agent(Box::new([0; AGENT_NUMBERS]));
        let answer = unsafe { raw::rl_load_row(agent.0.as_mut_ptr(), AGENT_NUMBERS, bytes.as_ptr(), bytes.len()) };
        done(answer, agent)
    }
}

// --- plans and reports ---

/// For each cell after how many ticks it is taken, by a box that begins at a tick of a title under a count.
pub fn plan(opening: &Notice, count: u64, arrival: u64) -> Answer<Vec<u16>> {
    let mut row = vec![NOTHING; PLAN_PLACES];
    let (places, len) = (row.as_mut_ptr(), row.len());
    // SAFETY: as above
    let answer = unsafe {
        match opening.kind {
            Kind::OpensSkip => raw::rl_skip_plan_row(count, arrival, places, len),
            _ => raw::rl_plan_row(opening.floor, opening.cap, count, arrival, places, len),
        }
    };
    done(answer, row)
}

/// What became of the admissions of a title by a record, in their order: the lowest cell that each missed, or NOTHING.
pub fn air(pool: u64, title: u64, log: &[u8], record: &[[u16; LANES]]) -> Answer<Vec<u16>> {
    let (mut row, mut report) = (vec![NOTHING; record.len().max(1)], [0; 3]);
    let numbers = record.as_flattened();
    // SAFETY: as above
    let answer = unsafe {
        raw::rl_air_row(
            pool,
            title,
            log.as_ptr(),
            log.len(),
            numbers.as_ptr(),
            numbers.len(),
            row.as_mut_ptr(),
            row.len(),
            report.as_mut_ptr(),
            report.len(),
        )
    };
    row.truncate(report[0] as usize);
    done(answer, row)
}

/// For each tick of a title's latest opening whether it is an admission.
pub fn admissions(pool: u64, title: u64, log: &[u8], ticks: usize) -> Answer<Vec<bool>> {
    let mut marks = vec![0; ticks];
    // SAFETY: as above
    let answer =
        unsafe { raw::rl_admissions_row(pool, title, log.as_ptr(), log.len(), marks.as_mut_ptr(), marks.len()) };
    done(answer, marks.iter().map(|mark| *mark == 1).collect())
}

/// A notice from its fields: kind, sequence, title, time, length, floor, cap, count.
#[cfg(test)]
pub fn written(fields: [u64; 8]) -> Notice {
    let (mut room, mut size) = ([0; 45], 0);
    // SAFETY: as above
    let answer = unsafe { raw::rl_write_row(fields.as_ptr(), 8, room.as_mut_ptr(), room.len(), &mut size, 1) };
    assert_eq!(answer, 0);
    Notice::next(&room[..size as usize], 0).expect("a notice that was just written").0
}
