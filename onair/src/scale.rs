//! How a run is measured out: how long a tick lasts, how many lanes the pool has, and which titles there are.
//! All titles send the same film. With cap K and a tick of m ms:
//!
//! | Title | Kind | Floor, cap | Tick | Length |
//! |---|---|---|---|---|
//! | 0 | padded, open from first to last | 3, K | m | 7/8 2^K m |
//! | 1 and 4 | padded, one behind the other | 2, K - 1 | 2 m | 6/8 2^K m |
//! | 2 | skip-forward | K - 3 lanes | 14 m | 7/8 2^K m |
//! | 3 | padded, while 1 is closed | 3, K - 1 | 2 m | 7/8 2^K m |
//!
//! The pool has 2 K - 4 lanes, too few for all: titles share them by their rates.

use crate::library::TICKS_MAX;
use crate::play::SLACK;

/// Ticks that are tried, in ms.
const TICKS: [u64; 8] = [20, 25, 32, 40, 50, 64, 80, 100];
const CAPS: [u64; 4] = [7, 8, 9, 10];
pub const SECONDS_MIN: u64 = 10;
pub const SECONDS_MAX: u64 = 300;
/// A film below it would leave cells without a byte.
pub const FILM_MIN: u64 = 1 << 20;
pub const MAIN: u64 = 0;
pub const SKIP: u64 = 2;
/// When the first titles open, in ms.
pub const OPENED: u64 = 1_500;
/// How long doors may be held, and a box that comes late may have to catch up, in ms.
const PATIENCE: u64 = 3_000;

#[derive(Clone, Copy, Debug, PartialEq, Eq)]
pub struct Scale {
    pub tick: u64,
    pub cap: u64,
    pub seconds: u64,
    pub size: u64,
}

impl Scale {
    /// The longest title that leaves room for several plays one behind the other, with the shortest tick from a given one
    /// on, or the longest there is.
    pub fn of(seconds: u64, size: u64, shortest: u64) -> Option<Scale> {
        let fits = |tick: u64, cap: u64| {
            let ticks = seconds * 1_000 / tick + (1 << cap);
            film_ms(cap, tick) * 100 <= seconds * 1_000 * 28 && ticks <= TICKS_MAX as u64
        };
        let both = TICKS.into_iter().flat_map(|tick| CAPS.into_iter().rev().map(move |cap| (tick, cap)));
        let fitting: Vec<(u64, u64)> = both.filter(|(tick, cap)| fits(*tick, *cap)).collect();
        let (tick, cap) = *fitting.iter().find(|(tick, _)| *tick >= shortest).or(fitting.last())?;
        Some(Scale { tick, cap, seconds, size })
    }

    pub fn pool(&self) -> u64 {
        2 * self.cap - 4
    }

    pub fn end(&self) -> u64 {
        self.seconds * 1_000
    }

    /// How long the longest title plays.
    pub fn film_ms(&self) -> u64 {
        film_ms(self.cap, self.tick)
    }

    /// When the last viewer asks: a slot of the lowest floor, held doors and the film fit behind it.
    pub fn last_ask(&self) -> u64 {
        let slot = (1 << (self.cap - 3)) * 2 * self.tick;
        self.end() - self.film_ms() - slot - PATIENCE - SLACK
    }

    /// When the first viewer asks.
    pub fn first_ask(&self) -> u64 {
        OPENED
    }

    /// Bytes a second of one lane.
    pub fn lane_rate(&self) -> f64 {
        self.size as f64 * 1_000.0 / self.film_ms() as f64
    }

    /// The line that opens a title at a time.
    pub fn opening(&self, title: u64, time: u64) -> String {
        let (cap, tick, whole) = (self.cap, self.tick, 1 << self.cap);
        match title {
            SKIP => format!("skip {title} {time} {} {}", 7 * whole * tick / 8, cap - 3),
            MAIN => format!("open {title} {time} {} 3 {cap} 4", 7 * whole * tick / 8),
            3 => format!("open {title} {time} {} 3 {} 3", 7 * whole * tick / 8, cap - 1),
            _ => format!("open {title} {time} {} 2 {} 2", 6 * whole * tick / 8, cap - 1),
        }
    }

    /// Floor and cap of a padded title.
    pub fn limits(&self, title: u64) -> (u64, u64) {
        match title {
            MAIN => (3, self.cap),
            3 => (3, self.cap - 1),
            _ => (2, self.cap - 1),
        }
    }
}

fn film_ms(cap: u64, tick: u64) -> u64 {
    (1 << cap) * 7 * tick / 8
}

#[cfg(test)]
mod tests {
    use super::*;

    #[test]
    fn a_minute_has_ticks_of_twenty_ms() {
        let scale = Scale::of(60, 20_000_000, 20).expect("a scale");
        assert_eq!((scale.tick, scale.cap, scale.pool()), (20, 9, 14));
        assert_eq!(scale.film_ms(), 8_960);
        assert!(scale.last_ask() > scale.first_ask());
        assert_eq!(scale.opening(0, 9), "open 0 9 8960 3 9 4");
    }

    #[test]
    fn every_length_has_a_scale() {
        for seconds in SECONDS_MIN..=SECONDS_MAX {
            let scale = Scale::of(seconds, FILM_MIN, 20).expect("a scale");
            assert!(scale.last_ask() > scale.first_ask(), "{seconds} seconds: {scale:?}");
        }
    }
}
