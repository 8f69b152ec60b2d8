//! The boxes of a run: when each is switched on and asks, and for what; one more is stopped while it plays.

use crate::given::Given;
use crate::random::Random;
use crate::scale::{Scale, MAIN, SKIP};
use crate::system;
use std::process::Child;

/// How long a box is stopped, in ms.
const STOPPED: u64 = 2_000;

/// A box of the run: when it is switched on and asks, and for what.
#[derive(Clone, Debug)]
pub struct Guest {
    pub number: u64,
    pub on: u64,
    pub ask: u64,
    pub titles: Vec<u64>,
    /// From when on it is stopped for a while.
    pub stopped: Option<u64>,
}

/// The boxes by the seed: half are on from the first, the others are switched on as they are asked. One more is stopped while it plays.
pub fn guests(given: &Given, scale: &Scale) -> Vec<Guest> {
    let mut random = Random::new(given.seed);
    let mut guests: Vec<Guest> = (0..given.boxes)
        .map(|number| {
            let ask = random.within(scale.first_ask(), scale.last_ask());
            let late = !given.old && random.chance(0.5);
            let titles = match random.below(4) {
                0 => vec![1, 3, MAIN],
                1 => vec![SKIP, 3, MAIN],
                _ => vec![MAIN],
            };
            Guest { number, on: if late { ask } else { 0 }, ask, titles, stopped: None }
        })
        .collect();
    let ask = scale.first_ask() + 500;
    let stopped = Some(ask + scale.film_ms() / 3);
    guests.push(Guest { number: given.boxes, on: 0, ask, titles: vec![MAIN], stopped });
    guests
}

/// A box that runs or has run.
pub struct Seat {
    pub guest: Guest,
    child: Option<Child>,
    ended: bool,
    /// Whether it had to be ended.
    pub hung: bool,
    /// Whether what it played is the film.
    pub same: bool,
}

impl Seat {
    fn has_ended(&mut self) -> bool {
        if !self.ended {
            self.ended = self.child.as_mut().is_some_and(|child| !matches!(child.try_wait(), Ok(None)));
        }
        self.ended
    }
}

/// The boxes: switched on, stopped, let go on, and waited for.
pub struct Seats {
    pub seats: Vec<Seat>,
    is_stopped: bool,
}

impl Seats {
    pub fn of(guests: Vec<Guest>) -> Seats {
        let seats = guests.into_iter().map(|guest| Seat { guest, child: None, ended: false, hung: false, same: false });
        Seats { seats: seats.collect(), is_stopped: false }
    }

    /// What is to be done by now: `start` starts a box, and `judge` says of one that has ended whether it played the film.
    pub fn work(
        &mut self,
        start: impl Fn(&Guest) -> Result<Child, String>,
        judge: impl Fn(&Guest) -> bool,
        clock: u64,
    ) -> Result<(), String> {
        for seat in self.seats.iter_mut().filter(|seat| !seat.ended) {
            if seat.child.is_none() && clock >= seat.guest.on {
                seat.child = Some(start(&seat.guest)?);
            }
            if let (Some(at), Some(child)) = (seat.guest.stopped, &seat.child) {
                let stopped = (at..at + STOPPED).contains(&clock);
                if stopped != self.is_stopped {
                    system::stop(child.id(), stopped);
                    self.is_stopped = stopped;
                }
            }
            if seat.has_ended() {
                seat.same = judge(&seat.guest);
            }
        }
        Ok(())
    }

    pub fn ended(&self) -> usize {
        self.seats.iter().filter(|seat| seat.ended).count()
    }

    /// Ends what is left.
    pub fn end(&mut self) {
        for seat in self.seats.iter_mut().filter(|seat| !seat.ended) {
            (seat.hung, seat.ended) = (true, true);
            if let Some(child) = &mut seat.child {
                // it is gone in either case
                let _ = child.kill();
                let _ = child.wait();
            }
        }
    }
}

impl Drop for Seats {
    fn drop(&mut self) {
        self.end();
    }
}

#[cfg(test)]
mod tests {
    use super::*;
    use crate::scale::FILM_MIN;

    #[test]
    fn boxes_ask_while_there_is_time() {
        let words = ["film", "--boxes", "40", "--seconds", "20"].map(str::to_string);
        let scale = Scale::of(20, FILM_MIN, 20).expect("a scale");
        let guests = guests(&Given::of(&words).expect("read"), &scale);
        assert_eq!(guests.iter().filter(|guest| guest.stopped.is_none()).count(), 40);
        assert!(guests.iter().all(|guest| guest.on <= guest.ask && guest.ask < scale.last_ask()));
    }
}
