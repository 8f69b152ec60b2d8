//! What this machine carries: a trial of a moment on the loopback, before a run begins.

use crate::modulator::PART;
use crate::play::SLACK;
use crate::scale::{Scale, SECONDS_MAX};
use crate::system::{self, Tuner, DATAGRAM_MAX};
use std::time::Duration;

/// How many receivers the trial has.
const EARS: usize = 4;
const DATAGRAMS: usize = 300;
const NAPS: usize = 60;
/// A sleeper that wakes later than this, in microseconds, leaves boxes too little of the time that a datagram may be late.
const LATE_MAX: u64 = SLACK * 1_000 / 3;
/// The least room for datagrams that a receiver needs, in bytes.
const ROOM_MIN: usize = 1 << 20;
/// The share of the processors that a run may need, and what a box costs a second besides its bytes, in seconds of one.
const SHARE: f64 = 0.5;
const BOX: f64 = 0.002;
/// What else a box does with a byte that it has taken (copy, digest, write), in seconds.
const BYTE: f64 = 3e-9;

/// Seconds of a processor for a byte that is sent, and for one that is received; how late a sleeper woke at worst, in microseconds.
#[derive(Clone, Copy, Debug)]
pub struct Trial {
    send: f64,
    receive: f64,
    pub late: u64,
}

/// The worst but one of some naps of 3 ms.
fn naps() -> u64 {
    let mut late: Vec<u64> = (0..NAPS)
        .map(|_| {
            let begun = system::micros();
            std::thread::sleep(Duration::from_millis(3));
            (system::micros() - begun).saturating_sub(3_000)
        })
        .collect();
    late.sort_unstable();
    late[NAPS - 2]
}

pub fn trial(port: u16) -> Result<Trial, String> {
    let failed = |why: std::io::Error| format!("port {port}: {why}");
    let tuners = (0..EARS).map(|_| Tuner::on(port, 4 << 20).map_err(failed)).collect::<Result<Vec<Tuner>, String>>()?;
    let room = tuners[0].room().map_err(failed)?;
    if room < ROOM_MIN {
        return Err(format!(
            "a receiver gets room for {room} bytes here: sysctl net.core.rmem_max=4194304 gives it enough"
        ));
    }
    let socket = system::sender().map_err(failed)?;
    let (bytes, mut buffer) = (vec![7; PART as usize], vec![0; DATAGRAM_MAX]);
    let (mut sending, mut receiving) = (0, 0);
    for _ in 0..DATAGRAMS {
        let begun = system::micros();
        system::send(&socket, port, &bytes).map_err(failed)?;
        let sent = system::micros();
        if !tuners.iter().all(|tuner| tuner.next(&mut buffer) == Some(bytes.len())) {
            return Err("a datagram to 127.255.255.255 did not come back: is the loopback up?".into());
        }
        sending += sent - begun;
        receiving += system::micros() - sent;
    }
    let all = (DATAGRAMS as u64 * PART) as f64 * 1e6;
    Ok(Trial { send: sending as f64 / all, receive: receiving as f64 / all / EARS as f64, late: naps() })
}

impl Trial {
    /// The shortest tick, in ms, in which a send that is late still lies in its tick.
    pub fn shortest_tick(&self) -> u64 {
        (2 * self.late).div_ceil(1_000)
    }

    /// What share of what it may take a run would take: above 1 it is not carried.
    pub fn load(&self, scale: &Scale, boxes: u64) -> f64 {
        let cores = std::thread::available_parallelism().map_or(1, usize::from) as f64;
        let sent = scale.lane_rate() * scale.pool() as f64;
        let window = (scale.last_ask() - scale.first_ask()) as f64;
        let playing = (boxes as f64 * scale.film_ms() as f64 / window).min(boxes as f64);
        let taken = playing * scale.lane_rate();
        let seconds = sent * (self.send + self.receive) + taken * (self.receive + BYTE) + boxes as f64 * BOX;
        seconds / (cores * SHARE)
    }

    /// Why a run is refused, in a line that says what would be carried; nothing where it is.
    pub fn refusal(&self, scale: &Scale, boxes: u64) -> Option<String> {
        if self.late > LATE_MAX {
            return Some(format!(
                "a sleeper wakes {} us late on this machine: a run needs {LATE_MAX} us or less",
                self.late
            ));
        }
        let load = self.load(scale, boxes);
        if load <= 1.0 {
            return None;
        }
        let few = Scale { size: 0, ..*scale };
        let idle = self.load(&few, boxes);
        if idle >= 1.0 {
            let most = (boxes as f64 / idle) as u64;
            return Some(format!("{boxes} boxes are not carried by this machine: it carries {most}"));
        }
        let share = (1.0 - idle) / (load - idle);
        let seconds = (scale.seconds as f64 / share).ceil() as u64;
        let longer =
            if seconds <= SECONDS_MAX { format!(", or this film in {seconds} seconds") } else { String::new() };
        Some(format!(
            "a film of {} bytes in {} seconds is not carried by this machine with {boxes} boxes: {} bytes are{longer}",
            scale.size,
            scale.seconds,
            (scale.size as f64 * share) as u64
        ))
    }
}

#[cfg(test)]
mod tests {
    use super::*;

    #[test]
    fn a_film_too_large_is_refused_with_what_is_carried() {
        let trial = Trial { send: 1e-9, receive: 1e-9, late: 900 };
        assert_eq!(trial.shortest_tick(), 2);
        let small = Scale::of(60, 20_000_000, 20).expect("a scale");
        assert_eq!(trial.refusal(&small, 100), None);
        let large = Scale { size: 200_000_000_000, ..small };
        let told = trial.refusal(&large, 100).expect("refused");
        assert!(told.contains("is not carried by this machine with 100 boxes: "), "{told}");
        assert!(trial.refusal(&small, 100_000).expect("refused").contains("100000 boxes"));
    }
}
