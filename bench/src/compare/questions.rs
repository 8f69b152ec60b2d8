//! Questions: lanes that are active, that send or are not held, status, the planner, plans and sharings.

use super::call::Call;
use super::maker::Maker;
use super::titles::{ids_where, title};
use crate::agent_row::{self, AgentRow, LAST_AT};
use crate::limits::*;
use crate::subject::Start;

impl Maker {
    fn asked_time(&mut self, from: u64, step: u64) -> u64 {
        match self.random.below(30) {
            0 => from.saturating_sub(1 + self.random.below(100)),
            1 => self.number(from.min(ASKED_MAX), ASKED_MAX),
            2 => self.number(0, ASKED_MAX),
            _ => from.saturating_add(self.random.below(step.saturating_mul(6).max(1))),
        }
    }

    /// A lane, rather one that sends.
    fn lane_of(&mut self, row: &AgentRow, id: u64) -> (u64, u64) {
        let view = title(row, (id as usize).min(TITLES - 1));
        let last = view.number(agent_row::TITLE_LAST);
        let time = self.asked_time(last, view.tick_length());
        let sending = match self.focus {
            Some((own, lane)) if own == id => vec![lane],
            _ => view.sending(last),
        };
        if sending.is_empty() || self.random.percent(30) {
            let cap = view.number(agent_row::CAP);
            let lane = if self.random.percent(80) {
                self.random.below(cap + 1)
            } else {
                self.number(0, LANE_MAX)
            };
            return (lane, time);
        }
        let lane = self.random.pick(&sending);
        let owed = view.number(agent_row::OWED + lane as usize);
        let tick = view
            .number(agent_row::DROPPED + lane as usize)
            .saturating_add(self.random.below(owed.saturating_add(1)));
        let opened = view.number(agent_row::OPENED);
        let at = opened.saturating_add(tick.saturating_mul(view.tick_length()));
        (lane, at.max(time))
    }

    pub fn lane(&mut self, row: &AgentRow) -> Call {
        let sending = ids_where(row, |t| !t.sending(t.number(agent_row::TITLE_LAST)).is_empty());
        let there = ids_where(row, |t| t.is_there());
        let id = match self.random.below(20) {
            0..=11 if self.focus.is_some() => self.focus.expect("there is one").0,
            0..=8 if !sending.is_empty() => self.random.pick(&sending),
            0..=17 if !there.is_empty() => self.random.pick(&there),
            _ => self.id(),
        };
        let (lane, time) = self.lane_of(row, id);
        Call::Lane { id, lane, time }
    }

    pub fn rom_lane(&mut self, row: &AgentRow) -> Call {
        let own = ids_where(row, |t| {
            t.number(agent_row::FLOOR) == ROM_FLOOR && t.number(agent_row::CAP) == ROM_CAP
        });
        let id = if own.is_empty() || self.random.percent(15) {
            self.id()
        } else {
            self.random.pick(&own)
        };
        let (lane, time) = self.lane_of(row, id);
        Call::RomLane { id, lane, time }
    }

    pub fn held(&mut self, row: &AgentRow) -> Call {
        let step = self.random.any() >> 30;
        let time = self.asked_time(row[LAST_AT], step);
        Call::Held { time }
    }

    pub fn status(&mut self, row: &AgentRow) -> Call {
        let step = self.random.any() >> 30;
        let time = self.asked_time(row[LAST_AT], step);
        let n = self.random.place(20);
        let ids: Vec<u64> = (0..n).map(|_| self.id()).collect();
        let mut places = [n; 3];
        if self.random.percent(6) {
            places[self.random.place(3)] = self.random.place(n + 3);
        }
        Call::Status { time, ids, places }
    }

    /// Rates of sixteen ids, often alike.
    fn rates(&mut self, n: usize) -> Vec<u32> {
        let high = self.random.pick(&[2, 9, RATE_MAX]);
        (0..n).map(|_| narrow(self.rare(RATE_MIN, high))).collect()
    }

    /// A number of a long row: out of its limits so seldom that most rows are within.
    fn rare(&mut self, low: u64, high: u64) -> u64 {
        if self.random.percent(10) {
            return self.number(low, high);
        }
        self.random.within(low..=high)
    }

    pub fn planner(&mut self, row: &AgentRow) -> Call {
        let step = self.random.any() >> 30;
        let time = match self.random.below(20) {
            0 => EVENT_TIME_MAX - self.random.below(20),
            _ => self.asked_time(row[LAST_AT], step),
        };
        let n = if self.random.percent(4) {
            self.random.pick(&[0, 15, 17])
        } else {
            TITLES
        };
        let rates = self.rates(n);
        let mut places = [self.random.pick(&[16, 16, 16, 20, 3, 1, 0]); 3];
        if self.random.percent(10) {
            places[self.random.place(3)] = self.random.place(17);
        }
        Call::Planner { time, rates, places }
    }

    fn start(&mut self, floor: u64, cap: u64) -> Start {
        let count = self.count(floor, cap);
        let slot = 1u64 << cap.saturating_sub(count).min(12);
        let arrival = match self.random.below(10) {
            0 => self.number(0, ASKED_MAX),
            1..=2 => self.random.below(ASKED_MAX) / slot * slot,
            _ => self.random.below(3 << cap.min(12)) / slot * slot,
        };
        Start {
            floor,
            cap,
            count,
            arrival,
        }
    }

    /// Places for so many numbers, seldom too few.
    fn places(&mut self, need: usize) -> usize {
        match self.random.below(12) {
            0 => need.saturating_sub(1),
            1 => self.random.place(need + 1),
            2..=4 => need + self.random.place(5),
            _ => need,
        }
    }

    pub fn plan(&mut self) -> Call {
        let (floor, cap) = self.floor_and_cap();
        let start = self.start(floor, cap);
        let places = self.places(1 << cap.min(12));
        Call::Plan { start, places }
    }

    pub fn rom_plan(&mut self) -> Call {
        let (floor, cap) = if self.random.percent(85) {
            (ROM_FLOOR, ROM_CAP)
        } else {
            self.floor_and_cap()
        };
        let start = self.start(floor, cap);
        let places = self.places(1 << cap.min(12));
        Call::RomPlan { start, places }
    }

    pub fn rom_fill(&mut self) -> Call {
        let places = if self.random.percent(70) {
            ROM_NUMBERS
        } else {
            ROM_NUMBERS - 3 + self.random.place(7)
        };
        Call::RomFill { places }
    }

    pub fn skip_plan(&mut self) -> Call {
        let count = self.number(COUNT_MIN, STEADY_MAX);
        let latest = if self.random.percent(70) { 2_000 } else { ASKED_MAX };
        let arrival = self.number(0, latest);
        let places = self.places(1 << (count.clamp(1, STEADY_MAX) - 1));
        Call::SkipPlan { count, arrival, places }
    }

    pub fn share(&mut self) -> Call {
        let n = match self.random.below(30) {
            0 => 17 + self.random.place(3),
            1..=10 => self.random.place(17),
            _ => self.random.place(6),
        };
        let alike = self.random.percent(40);
        let first = self.sharer();
        let titles: Vec<[u32; 4]> = (0..n).map(|_| if alike { first } else { self.sharer() }).collect();
        let column = |i: usize| titles.iter().map(|title| title[i]).collect::<Vec<u32>>();
        let mut rows = [column(0), column(1), column(2), column(3)];
        rows[0] = self.rates(n);
        if self.random.percent(4) {
            rows[self.random.place(4)].pop();
        }
        let least: u64 = titles.iter().map(|title| u64::from(title[2])).sum();
        let pool = match self.random.below(10) {
            0 => self.pool(),
            1 => least.saturating_sub(1),
            _ => least.saturating_add(self.random.below(30)).clamp(POOL_MIN, POOL_MAX),
        };
        let places = self.places(n);
        Call::Share { pool, rows, places }
    }

    /// A title that shares: rate, length, floor and cap.
    fn sharer(&mut self) -> [u32; 4] {
        let cap = self.rare(COUNT_MIN, COUNT_MAX);
        let floor = match self.random.below(60) {
            0 => self.rare(FLOOR_MIN, FLOOR_MAX),
            _ => self.rare(FLOOR_MIN, cap.clamp(FLOOR_MIN, FLOOR_MAX)),
        };
        let high = self.random.pick(&[40, 4_000, LENGTH_MAX]);
        let length = self.rare(LENGTH_MIN, high);
        [1, narrow(length), narrow(floor), narrow(cap)]
    }
}

fn narrow(number: u64) -> u32 {
    u32::try_from(number).unwrap_or(u32::MAX)
}
