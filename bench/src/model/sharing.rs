//! The sharing of a pool (01, "Sharing"; the sum by 02, request 2): over all choices of counts within floors and caps, the
//! least sum of rate x tick x 2^(K-k), and among equals the one whose first title has most, then the second, and so on.

use super::grid::{slot, tick};
use crate::limits::*;
use crate::refusals::*;
use crate::subject::Sharers;

/// What the sharing knows of a title.
#[derive(Clone, Copy)]
pub struct Rated {
    pub rate: u64,
    pub length: u64,
    pub floor: u64,
    pub cap: u64,
}

impl Rated {
    fn in_limits(&self) -> bool {
        (RATE_MIN..=RATE_MAX).contains(&self.rate)
            && (LENGTH_MIN..=LENGTH_MAX).contains(&self.length)
            && (FLOOR_MIN..=FLOOR_MAX).contains(&self.floor)
            && (COUNT_MIN..=COUNT_MAX).contains(&self.cap)
    }

    fn part(&self, count: u64) -> u64 {
        self.rate * tick(self.length, self.floor, self.cap) * slot(self.cap, count)
    }
}

/// The least sum of the titles from one on within so many lanes, none where they have not enough. `least[i][lanes]`.
fn least_sums(titles: &[Rated], pool: u64) -> Vec<Vec<Option<u64>>> {
    let mut least = vec![vec![Some(0); pool as usize + 1]];
    for title in titles.iter().rev() {
        let rest = least.last().expect("begun with no titles");
        let sums = (0..=pool).map(|lanes| {
            let choices = (title.floor..=title.cap.min(lanes)).filter_map(|count| {
                let others = rest[(lanes - count) as usize]?;
                Some(title.part(count) + others)
            });
            choices.min()
        });
        let sums = sums.collect();
        least.push(sums);
    }
    least.reverse();
    least
}

/// The counts of the best choice; the floors together are within the pool.
pub fn best(titles: &[Rated], pool: u64) -> Vec<u64> {
    let least = least_sums(titles, pool);
    let mut lanes = pool;
    let mut counts = Vec::new();
    for (i, title) in titles.iter().enumerate() {
        let whole = least[i][lanes as usize];
        let best = (title.floor..=title.cap.min(lanes)).rev().find(|count| {
            let others = least[i + 1][(lanes - count) as usize];
            others.map(|sum| sum + title.part(*count)) == whole
        });
        let count = best.expect("some choice has the least sum");
        lanes -= count;
        counts.push(count);
    }
    counts
}

/// 10 1 15 9.
pub fn share(pool: u64, rows: Sharers, counts: &mut [u32]) -> u8 {
    let n = rows.rates.len();
    let even = rows.lengths.len() == n && rows.floors.len() == n && rows.caps.len() == n;
    if !even || n > TITLES || counts.len() < n {
        return WRONG_ROWS;
    }
    let rated = (0..n).map(|i| Rated {
        rate: rows.rates[i].into(),
        length: rows.lengths[i].into(),
        floor: rows.floors[i].into(),
        cap: rows.caps[i].into(),
    });
    let titles: Vec<Rated> = rated.collect();
    let within = (POOL_MIN..=POOL_MAX).contains(&pool) && titles.iter().all(Rated::in_limits);
    let number = first_hit(&[
        (OUTSIDE_LIMITS, !within),
        (FLOOR_ABOVE_CAP, titles.iter().any(|t| t.cap < t.floor)),
        (NO_LANES, pool < titles.iter().map(|t| t.floor).sum()),
    ]);
    if number == DONE {
        for (place, count) in counts.iter_mut().zip(best(&titles, pool)) {
            *place = count as u32;
        }
    }
    number
}

#[cfg(test)]
mod tests {
    use super::*;

    /// Every choice, the first title's largest count first.
    fn choices(titles: &[Rated], pool: u64) -> Vec<Vec<u64>> {
        let Some((first, rest)) = titles.split_first() else {
            return vec![Vec::new()];
        };
        let counts = (first.floor..=first.cap.min(pool)).rev();
        let with = |count: u64| {
            let others = choices(rest, pool - count).into_iter();
            others.map(move |other| [vec![count], other].concat())
        };
        counts.flat_map(with).collect()
    }

    #[test]
    fn the_least_sum_over_all_choices_is_taken() {
        for pool in 6..=16 {
            for (a, b, c) in [(1, 1, 1), (4, 9, 2), (7, 7, 30), (1000, 1, 3)] {
                let title = |rate, length, floor, cap| Rated {
                    rate,
                    length,
                    floor,
                    cap,
                };
                let titles = [title(a, 12, 2, 4), title(b, 210, 2, 7), title(c, 90, 2, 6)];
                let sum = |counts: &[u64]| -> u64 { titles.iter().zip(counts).map(|(t, k)| t.part(*k)).sum() };
                let all = choices(&titles, pool);
                let least = all.iter().map(|counts| sum(counts)).min();
                let first = all.into_iter().find(|counts| Some(sum(counts)) == least);
                assert_eq!(Some(best(&titles, pool)), first);
            }
        }
    }
}
