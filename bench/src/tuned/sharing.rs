//! Sharing: from the floors on, each lane goes where the sum falls most.

use super::grid::tick_length;
use crate::limits::*;
use crate::refusals::*;
use crate::subject::Sharers;

/// What the sharing knows of some titles, at most sixteen, and what each gets.
pub struct Shares {
    pub many: usize,
    counts: [u64; TITLES],
    caps: [u64; TITLES],
    /// What the sum loses with one lane more: with each lane half as much, and nothing at the cap.
    falls: [u64; TITLES],
}

impl Shares {
    pub fn none() -> Shares {
        Shares {
            many: 0,
            counts: [0; TITLES],
            caps: [0; TITLES],
            falls: [0; TITLES],
        }
    }

    pub fn join(&mut self, rate: u64, length: u64, floor: u64, cap: u64) {
        let at = self.many;
        let part = rate * u64::from(tick_length(length as u32, floor, cap));
        self.counts[at] = floor;
        self.caps[at] = cap;
        self.falls[at] = if floor < cap { part << (cap - floor - 1) } else { 0 };
        self.many += 1;
    }

    /// Gives out lanes one by one, to the first of those that gain most.
    pub fn give(&mut self, lanes: u64) -> &[u64] {
        for _ in 0..lanes {
            let mut best = 0;
            for at in 1..self.many {
                if self.falls[best] < self.falls[at] {
                    best = at;
                }
            }
            if self.falls[best] == 0 {
                break;
            }
            self.counts[best] += 1;
            self.falls[best] = if self.counts[best] < self.caps[best] {
                self.falls[best] / 2
            } else {
                0
            };
        }
        &self.counts[..self.many]
    }
}

/// 10 1 15 9.
pub fn share(pool: u64, titles: Sharers, counts: &mut [u32]) -> u8 {
    let Sharers {
        rates,
        lengths,
        floors,
        caps,
    } = titles;
    let n = rates.len();
    if n > TITLES || lengths.len() != n || floors.len() != n || caps.len() != n || counts.len() < n {
        return WRONG_ROWS;
    }
    let within = |row: &[u32], low: u64, high: u64| row.iter().all(|x| (low..=high).contains(&u64::from(*x)));
    let all_within = (POOL_MIN..=POOL_MAX).contains(&pool)
        && within(rates, RATE_MIN, RATE_MAX)
        && within(lengths, LENGTH_MIN, LENGTH_MAX)
        && within(floors, FLOOR_MIN, FLOOR_MAX)
        && within(caps, COUNT_MIN, COUNT_MAX);
    if !all_within {
        return OUTSIDE_LIMITS;
    }
    if floors.iter().zip(caps).any(|(floor, cap)| cap < floor) {
        return FLOOR_ABOVE_CAP;
    }
    let least: u64 = floors.iter().map(|floor| u64::from(*floor)).sum();
    if pool < least {
        return NO_LANES;
    }
    let mut shares = Shares::none();
    for i in 0..n {
        shares.join(rates[i].into(), lengths[i].into(), floors[i].into(), caps[i].into());
    }
    for (place, count) in counts.iter_mut().zip(shares.give(pool - least)) {
        *place = *count as u32;
    }
    DONE
}
