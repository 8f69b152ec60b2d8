//! What the calls of a session are made from: its random numbers, and the manner of its titles and times.

use crate::limits::*;
use crate::random::Random;
use crate::subject::Film;

pub struct Maker {
    pub random: Random,
    /// When the session's clock begins.
    pub base: u64,
    /// Whether films have the lengths of real ones, or ticks of a few ms.
    long: bool,
    /// How often of a hundred a number is out of its limits.
    wild: u64,
    /// A lane that was dropped by hand: it is asked about.
    pub focus: Option<(u64, u64)>,
}

impl Maker {
    pub fn new(seed: u64) -> Maker {
        let mut random = Random::new(seed);
        let base = match random.below(10) {
            0..=4 => 0,
            5..=6 => random.below(1 << 24),
            7 => random.below(EVENT_TIME_MAX),
            8 => EVENT_TIME_MAX - random.below(1 << 24),
            _ => EVENT_TIME_MAX - random.below(300),
        };
        let long = random.percent(40);
        let wild = random.pick(&[0, 1, 1, 2, 5]);
        Maker {
            random,
            base,
            long,
            wild,
            focus: None,
        }
    }

    /// A number, seldom one out of its limits.
    pub fn number(&mut self, low: u64, high: u64) -> u64 {
        if self.random.percent(self.wild) {
            return match self.random.below(4) {
                0 => high.saturating_add(1),
                1 => low.saturating_sub(1),
                2 => u64::MAX,
                _ => self.random.any(),
            };
        }
        self.random.within(low..=high)
    }

    pub fn pool(&mut self) -> u64 {
        let high = self.random.pick(&[8, 12, 24, POOL_MAX, POOL_MAX]);
        let low = if self.random.percent(10) { POOL_MIN } else { 6 };
        self.number(low, high)
    }

    pub fn id(&mut self) -> u64 {
        let high = self.random.pick(&[3, ID_MAX]);
        self.number(0, high)
    }

    pub fn length(&mut self, cap: u64) -> u64 {
        let high = if self.long { LENGTH_MAX } else { 3 << cap.min(12) };
        self.number(LENGTH_MIN, high)
    }

    /// A floor and a cap, the small box's now and then.
    pub fn floor_and_cap(&mut self) -> (u64, u64) {
        let (low, high) = match self.random.below(20) {
            0 => (2, 3),
            1..=9 => (3, 6),
            10..=15 => (5, 8),
            16..=17 => return (ROM_FLOOR, ROM_CAP),
            18 => (9, 10),
            _ => (11, COUNT_MAX),
        };
        let cap = self.number(low, high);
        let floor = if self.random.percent(3) {
            self.number(FLOOR_MIN, FLOOR_MAX)
        } else {
            self.number(FLOOR_MIN, cap.clamp(FLOOR_MIN, FLOOR_MAX))
        };
        (floor, cap)
    }

    /// A count from floor to cap, seldom one beside them.
    pub fn count(&mut self, floor: u64, cap: u64) -> u64 {
        match self.random.below(60) {
            0 => floor.wrapping_sub(1),
            1 => cap.wrapping_add(1),
            _ => self.number(floor.clamp(COUNT_MIN, cap.max(COUNT_MIN)), cap.max(COUNT_MIN)),
        }
    }

    pub fn film(&mut self) -> Film {
        let (floor, cap) = self.floor_and_cap();
        // few lanes at first, so that several titles find theirs
        let most = if self.random.percent(60) {
            cap.min(floor.saturating_add(1))
        } else {
            cap
        };
        Film {
            length: self.length(cap),
            floor,
            cap,
            count: self.count(floor, most),
        }
    }
}
