//! What goes over the air: datagrams of the lanes, and those of the notices' port. All numbers are big-endian.
//!
//! A lane's datagram is a part of a cell: 'L', title, lane, a zero, the tick (8 bytes), the place of its first byte in the
//! film (8 bytes), and the bytes. One of the notices' port begins with what it is ('N' notices, 'S' a snapshot), three
//! zeros, the last sequence that was sent out (4 bytes) and the sender's clock in ms (8 bytes): every one of them is a
//! beat. Behind that 'N' has notices back to back, and 'S' the agent's 6,052 bytes, for each lane of the pool the title and
//! the lane that have it (255 255 where none has), and back to back the notices that opened the titles of that moment.

use crate::lanes::Lanes;
use crate::library::{Notice, SNAPSHOT_BYTES};

pub const LANE_HEAD: usize = 20;
const BEAT_HEAD: usize = 16;

/// What a lane's datagram claims.
#[derive(Clone, Copy, Debug, PartialEq, Eq)]
pub struct LaneHead {
    pub title: u8,
    pub lane: u8,
    pub tick: u64,
    pub place: u64,
}

fn number(bytes: &[u8]) -> u64 {
    bytes.iter().fold(0, |sum, byte| sum << 8 | u64::from(*byte))
}

impl LaneHead {
    /// Puts the claim in the place of a datagram's beginning.
    pub fn put(&self, datagram: &mut Vec<u8>) {
        datagram.clear();
        datagram.extend([b'L', self.title, self.lane, 0]);
        datagram.extend(self.tick.to_be_bytes());
        datagram.extend(self.place.to_be_bytes());
    }

    pub fn of(bytes: &[u8]) -> Option<LaneHead> {
        if bytes.len() < LANE_HEAD || bytes[0] != b'L' {
            return None;
        }
        Some(LaneHead { title: bytes[1], lane: bytes[2], tick: number(&bytes[4..12]), place: number(&bytes[12..20]) })
    }
}

/// What every datagram of the notices' port begins with: up to which sequence notices were sent out, and when.
#[derive(Clone, Copy, Debug, PartialEq, Eq)]
pub struct Beat {
    pub last: u64,
    pub clock: u64,
}

fn begun(kind: u8, beat: Beat) -> Vec<u8> {
    let mut datagram = vec![kind, 0, 0, 0];
    datagram.extend((beat.last as u32).to_be_bytes());
    datagram.extend(beat.clock.to_be_bytes());
    datagram
}

pub fn notices<'a>(beat: Beat, notices: impl Iterator<Item = &'a Notice>) -> Vec<u8> {
    let mut datagram = begun(b'N', beat);
    notices.for_each(|notice| datagram.extend(&notice.bytes));
    datagram
}

pub fn snapshot<'a>(beat: Beat, agent: &[u8], lanes: &Lanes, openings: impl Iterator<Item = &'a Notice>) -> Vec<u8> {
    let mut datagram = begun(b'S', beat);
    datagram.extend(agent);
    datagram.extend(lanes.bytes());
    openings.for_each(|notice| datagram.extend(&notice.bytes));
    datagram
}

/// A datagram of the notices' port.
pub enum Told {
    Notices(Vec<Notice>),
    Snapshot { agent: Vec<u8>, lanes: Lanes, openings: Vec<Notice> },
}

/// Reads one, in a pool of so many lanes.
pub fn told(bytes: &[u8], pool: usize) -> Option<(Beat, Told)> {
    let beat = Beat { last: number(bytes.get(4..8)?), clock: number(bytes.get(8..BEAT_HEAD)?) };
    let rest = &bytes[BEAT_HEAD..];
    let told = match bytes[0] {
        b'N' => Told::Notices(Notice::all(rest)),
        b'S' => {
            let (agent, rest) = rest.split_at_checked(SNAPSHOT_BYTES)?;
            let (lanes, rest) = rest.split_at_checked(2 * pool)?;
            Told::Snapshot { agent: agent.to_vec(), lanes: Lanes::of(lanes), openings: Notice::all(rest) }
        }
        _ => return None,
    };
    Some((beat, told))
}

#[cfg(test)]
mod tests {
    use super::*;
    use crate::library::written;

    #[test]
    fn a_lane_head_reads_back() {
        let head = LaneHead { title: 3, lane: 11, tick: 1 << 33, place: 19_999_999 };
        let mut datagram = vec![1, 2, 3];
        head.put(&mut datagram);
        assert_eq!(datagram.len(), LANE_HEAD);
        assert_eq!(LaneHead::of(&datagram), Some(head));
        assert_eq!(LaneHead::of(&datagram[..LANE_HEAD - 1]), None);
    }

    #[test]
    fn notices_read_back() {
        let sent = [written([2, 7, 0, 900, 0, 0, 0, 5]), written([3, 8, 1, 950, 0, 0, 0, 0])];
        let beat = Beat { last: 8, clock: 123 };
        let Some((heard, Told::Notices(came))) = told(&notices(beat, sent.iter()), 8) else {
            panic!("no notices");
        };
        assert_eq!((heard, &came[..]), (beat, &sent[..]));
        assert!(told(b"N", 8).is_none());
    }
}
