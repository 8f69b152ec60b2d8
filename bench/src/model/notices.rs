//! Notices (01, "Notices"; kinds 4 to 6 by 02): fields of a tag, a length and a value, numbers big-endian, tags ascending.

use super::events::{Act, Event};
use crate::refusals::*;
use crate::subject::{Fields, Film};

/// How many bytes the value of each tag has, tags counted from 1.
const SIZES: [usize; 8] = [1, 4, 1, 8, 4, 1, 1, 1];
/// A tag and two bytes of length stand before each value.
const HEAD: usize = 3;

/// The tags of a kind.
fn tags(kind: u64) -> Option<&'static [usize]> {
    match kind {
        1 => Some(&[1, 2, 3, 4, 5, 6, 7, 8]),
        2 => Some(&[1, 2, 3, 4, 8]),
        3..=5 => Some(&[1, 2, 3, 4]),
        6 => Some(&[1, 2, 3, 4, 5, 8]),
        _ => None,
    }
}

/// How long a notice of a kind is.
fn size(kind: u64) -> Option<usize> {
    let tags = tags(kind)?;
    Some(tags.iter().map(|tag| HEAD + SIZES[tag - 1]).sum())
}

fn big_endian(bytes: &[u8]) -> u64 {
    bytes.iter().fold(0, |number, byte| number * 256 + u64::from(*byte))
}

/// The notice at a place of a log, and how long it is; none where bytes are no notice.
pub fn read_at(log: &[u8], place: usize) -> Option<(Fields, usize)> {
    let bytes = log.get(place..)?;
    let kind = u64::from(*bytes.get(HEAD)?);
    let size = size(kind)?;
    let mut rest = bytes.get(..size)?;
    let mut fields = [0; 8];
    for tag in tags(kind)? {
        let width = SIZES[tag - 1];
        let (field, after) = rest.split_at(HEAD + width);
        if u64::from(field[0]) != *tag as u64 || big_endian(&field[1..HEAD]) != width as u64 {
            return None;
        }
        fields[tag - 1] = big_endian(&field[HEAD..]);
        rest = after;
    }
    Some((fields, size))
}

/// One notice and nothing after it: 11.
pub fn read(bytes: &[u8], fields: &mut Fields) -> u8 {
    match read_at(bytes, 0) {
        Some((found, size)) if size == bytes.len() => {
            *fields = found;
            DONE
        }
        _ => MALFORMED,
    }
}

/// What a log has at a place, and the place after it.
pub fn next(log: &[u8], place: u64, fields: &mut Fields) -> (u8, u64) {
    if place >= log.len() as u64 {
        return (END, place);
    }
    match read_at(log, place as usize) {
        Some((found, size)) => {
            *fields = found;
            (DONE, place + size as u64)
        }
        None => (MALFORMED, place),
    }
}

/// The bytes of a notice; none for an unknown kind or a number that its field does not hold.
pub fn bytes_of(fields: &Fields) -> Option<Vec<u8>> {
    let mut bytes = Vec::new();
    for tag in tags(fields[0])? {
        let width = SIZES[tag - 1];
        let number = fields[tag - 1].to_be_bytes();
        let (over, value) = number.split_at(8 - width);
        if over.iter().any(|byte| *byte != 0) {
            return None;
        }
        bytes.extend([*tag as u8, 0, width as u8]);
        bytes.extend(value);
    }
    Some(bytes)
}

/// Writes a notice at the start of a room, and how many bytes it has: 10 for a room that is too short for its kind, then 1 for
/// a row that is no notice's. What is no kind asks for no room.
pub fn write(fields: &Fields, room: &mut [u8]) -> (u8, u64) {
    let Some(start) = room.get_mut(..size(fields[0]).unwrap_or(0)) else {
        return (WRONG_ROWS, 0);
    };
    let Some(bytes) = bytes_of(fields) else {
        return (OUTSIDE_LIMITS, 0);
    };
    start.copy_from_slice(&bytes);
    (DONE, bytes.len() as u64)
}

/// The event that a notice tells.
pub fn event_of(fields: &Fields) -> Event {
    let [kind, _, id, time, length, floor, cap, count] = *fields;
    let act = match kind {
        1 => Act::Open(Film {
            length,
            floor,
            cap,
            count,
        }),
        2 => Act::Change { count },
        3 => Act::Close,
        4 => Act::Hold,
        5 => Act::Lift,
        _ => Act::Skip { length, count },
    };
    Event { id, time, act }
}
