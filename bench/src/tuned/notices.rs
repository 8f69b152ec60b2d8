//! Notices: each kind's fields stand at fixed places, so heads are compared and numbers read where they are.

use super::agent::Agent;
use super::events::{change_checked, close_checked, doors_checked, open_checked, skip_checked};
use crate::limits::SEQUENCE_MAX;
use crate::refusals::*;
use crate::subject::{Fields, Film};

const OPEN: u8 = 1;
const CHANGE: u8 = 2;
const CLOSE: u8 = 3;
const HOLD: u8 = 4;
const LIFT: u8 = 5;
const SKIP: u8 = 6;

/// The bytes of sequence, title and time, which every kind begins with.
const COMMON: usize = 26;

/// How long a notice of a kind is, 0 for no kind.
const SIZES: [usize; 7] = [0, 45, 30, COMMON, COMMON, COMMON, 37];

fn size(kind: u64) -> usize {
    SIZES.get(kind as usize).copied().unwrap_or(0)
}

/// A notice in memory.
#[derive(Clone, Copy, Default)]
pub struct Notice {
    pub kind: u8,
    pub sequence: u32,
    pub title: u8,
    pub time: u64,
    pub length: u32,
    pub floor: u8,
    pub cap: u8,
    pub count: u8,
}

fn four(bytes: &[u8]) -> u32 {
    u32::from_be_bytes([bytes[0], bytes[1], bytes[2], bytes[3]])
}

/// The notice at the start of some bytes, and how long it is.
#[inline]
pub fn read_first(bytes: &[u8]) -> Option<(Notice, usize)> {
    let common: &[u8; COMMON] = bytes.first_chunk()?;
    let kind = common[3];
    let size = size(u64::from(kind));
    let heads = common[..3] == [1, 0, 1]
        && common[4..7] == [2, 0, 4]
        && common[11..14] == [3, 0, 1]
        && common[15..18] == [4, 0, 8];
    if !heads || size == 0 {
        return None;
    }
    let mut notice = Notice {
        kind,
        sequence: four(&common[7..11]),
        title: common[14],
        time: u64::from_be_bytes(*common.last_chunk()?),
        ..Notice::default()
    };
    let own = bytes.get(COMMON..size)?;
    read_own(&mut notice, own).then_some((notice, size))
}

/// The fields of a kind's own; whether their heads stand.
#[inline]
fn read_own(notice: &mut Notice, own: &[u8]) -> bool {
    match (notice.kind, own) {
        (OPEN, [5, 0, 4, a, b, c, d, 6, 0, 1, floor, 7, 0, 1, cap, 8, 0, 1, count]) => {
            notice.length = u32::from_be_bytes([*a, *b, *c, *d]);
            notice.floor = *floor;
            notice.cap = *cap;
            notice.count = *count;
            true
        }
        (CHANGE, [8, 0, 1, count]) => {
            notice.count = *count;
            true
        }
        (SKIP, [5, 0, 4, a, b, c, d, 8, 0, 1, count]) => {
            notice.length = u32::from_be_bytes([*a, *b, *c, *d]);
            notice.count = *count;
            true
        }
        (CLOSE | HOLD | LIFT, []) => true,
        _ => false,
    }
}

impl Notice {
    pub fn fields(&self) -> Fields {
        [
            self.kind.into(),
            self.sequence.into(),
            self.title.into(),
            self.time,
            self.length.into(),
            self.floor.into(),
            self.cap.into(),
            self.count.into(),
        ]
    }
}

pub fn read(bytes: &[u8], fields: &mut Fields) -> u8 {
    match read_first(bytes) {
        Some((notice, size)) if size == bytes.len() => {
            *fields = notice.fields();
            DONE
        }
        _ => MALFORMED,
    }
}

pub fn next(log: &[u8], place: u64, fields: &mut Fields) -> (u8, u64) {
    if place >= log.len() as u64 {
        return (END, place);
    }
    match read_first(&log[place as usize..]) {
        Some((notice, size)) => {
            *fields = notice.fields();
            (DONE, place + size as u64)
        }
        None => (MALFORMED, place),
    }
}

/// Whether each number of a notice's row fits its field.
fn fits(fields: &Fields) -> bool {
    let [kind, sequence, title, _, length, floor, cap, count] = *fields;
    let (byte, four_bytes) = (u64::from(u8::MAX), SEQUENCE_MAX);
    let common = size(kind) > 0 && sequence <= four_bytes && title <= byte;
    let own = match kind as u8 {
        OPEN => length <= four_bytes && floor <= byte && cap <= byte && count <= byte,
        CHANGE => count <= byte,
        SKIP => length <= four_bytes && count <= byte,
        _ => true,
    };
    common && own
}

/// Writes a notice at the start of a room, and how many bytes it has: 10 for a room that is too short for its kind, then 1 for
/// a row that is no notice's.
pub fn write(fields: &Fields, room: &mut [u8]) -> (u8, u64) {
    let [kind, sequence, title, time, length, floor, cap, count] = *fields;
    let size = size(kind);
    if room.len() < size {
        return (WRONG_ROWS, 0);
    }
    if !fits(fields) {
        return (OUTSIDE_LIMITS, 0);
    }
    let (common, own) = room[..size].split_at_mut(COMMON);
    common[..7].copy_from_slice(&[1, 0, 1, kind as u8, 2, 0, 4]);
    common[7..11].copy_from_slice(&(sequence as u32).to_be_bytes());
    common[11..18].copy_from_slice(&[3, 0, 1, title as u8, 4, 0, 8]);
    common[18..].copy_from_slice(&time.to_be_bytes());
    let [a, b, c, d] = (length as u32).to_be_bytes();
    let (floor, cap, count) = (floor as u8, cap as u8, count as u8);
    match kind as u8 {
        OPEN => own.copy_from_slice(&[5, 0, 4, a, b, c, d, 6, 0, 1, floor, 7, 0, 1, cap, 8, 0, 1, count]),
        CHANGE => own.copy_from_slice(&[8, 0, 1, count]),
        SKIP => own.copy_from_slice(&[5, 0, 4, a, b, c, d, 8, 0, 1, count]),
        _ => (),
    }
    (DONE, size as u64)
}

/// One notice's bytes, and nothing after them: 11 12, and then what its event answers.
pub fn take(agent: &mut Agent, bytes: &[u8]) -> u8 {
    match read_first(bytes) {
        Some((notice, size)) if size == bytes.len() => {
            if u64::from(notice.sequence) != agent.sequence.wrapping_add(1) {
                return OUT_OF_TURN;
            }
            if !agent.in_limits() {
                return OUTSIDE_LIMITS;
            }
            enact(agent, &notice)
        }
        _ => MALFORMED,
    }
}

/// A notice of a log, to an agent that is within its limits.
pub fn heed(agent: &mut Agent, notice: &Notice) -> u8 {
    if u64::from(notice.sequence) != agent.sequence + 1 {
        return OUT_OF_TURN;
    }
    enact(agent, notice)
}

/// The event of a notice in its turn, to an agent that is within its limits.
fn enact(agent: &mut Agent, notice: &Notice) -> u8 {
    let (id, time, count) = (notice.title.into(), notice.time, notice.count.into());
    let length = notice.length.into();
    let answer = match notice.kind {
        OPEN => {
            let film = Film {
                length,
                floor: notice.floor.into(),
                cap: notice.cap.into(),
                count,
            };
            open_checked(agent, id, time, film)
        }
        CHANGE => change_checked(agent, id, time, count),
        CLOSE => close_checked(agent, id, time),
        HOLD => doors_checked(agent, id, time, true),
        LIFT => doors_checked(agent, id, time, false),
        _ => skip_checked(agent, id, time, length, count),
    };
    if answer == DONE {
        agent.sequence = notice.sequence.into();
    }
    answer
}

impl Notice {
    pub fn is_opening(&self) -> bool {
        matches!(self.kind, OPEN | SKIP)
    }
}
