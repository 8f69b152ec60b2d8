//! A session: a fresh agent, and calls one after the other, each put to both subjects.

use super::call::{Call, Lent};
use super::logs::Logged;
use super::maker::Maker;
use super::tally::Tally;
use super::titles::{ids_where, title};
use crate::agent_row::{self, AgentRow};
use crate::limits::*;
use crate::refusals::{DONE, OUTSIDE_LIMITS};
use crate::subject::Subject;

/// Two subjects, and what they were asked.
pub struct Session<'a, A: Subject, B: Subject> {
    pub a: &'a mut A,
    pub b: &'a mut B,
    pub tally: &'a mut Tally,
    maker: Maker,
    row: AgentRow,
    /// The agent that events led to, while one made by hand is lent.
    kept: Option<Box<AgentRow>>,
    left_by_hand: u64,
    asked: Vec<Call>,
}

impl<'a, A: Subject, B: Subject> Session<'a, A, B> {
    pub fn new(a: &'a mut A, b: &'a mut B, tally: &'a mut Tally, seed: u64) -> Session<'a, A, B> {
        tally.sessions += 1;
        let row = a.agent();
        Session {
            a,
            b,
            tally,
            maker: Maker::new(seed),
            row,
            kept: None,
            left_by_hand: 0,
            asked: Vec::new(),
        }
    }

    /// All calls of a session, or the first that the subjects answer differently.
    pub fn run(&mut self, most: u64) -> Result<(), String> {
        // one that is not refused, so that nothing is left of the session before
        let pool = self.maker.pool().clamp(POOL_MIN, POOL_MAX);
        self.put(Call::Fresh { pool })?;
        let calls = self.maker.random.within(20..=400).min(most);
        let mut logged = self.maker.logged();
        for call in 1..calls {
            if call % 100 == 99 {
                logged = self.maker.logged();
            }
            let call = self.next_call(&logged);
            self.put(call)?;
        }
        Ok(())
    }

    fn next_call(&mut self, logged: &Logged) -> Call {
        if self.kept.is_some() {
            if self.left_by_hand == 0 {
                self.maker.focus = None;
                let row = self.kept.take().expect("kept while another is lent");
                return Call::Lend(Lent(row));
            }
            self.left_by_hand -= 1;
            if self.maker.focus.is_some() && self.maker.random.percent(50) {
                return self.maker.lane(&self.row);
            }
            return self.agent_call();
        }
        match self.maker.random.below(1_000) {
            0..=29 => {
                self.kept = Some(Box::new(self.row));
                self.left_by_hand = self.maker.random.within(1..=8);
                Call::Lend(Lent(Box::new(self.maker.by_hand(&self.row))))
            }
            30..=31 => {
                let pool = self.maker.pool();
                Call::Fresh { pool }
            }
            32..=749 => self.agent_call(),
            _ => self.other_call(logged),
        }
    }

    /// A call that reads or changes the agent.
    fn agent_call(&mut self) -> Call {
        let row = &self.row;
        let open = ids_where(row, |t| t.is_open()).len() as u64;
        if open < 3 && self.maker.random.percent(30 - 10 * open) {
            return self.maker.open(row);
        }
        match self.maker.random.below(100) {
            0..=9 => self.maker.open(row),
            10..=27 => self.maker.change(row),
            28..=32 => self.maker.close(row),
            33..=41 => self.maker.doors(row),
            42..=56 => self.maker.take(row),
            57..=80 => self.maker.lane(row),
            81..=86 => self.maker.rom_lane(row),
            87..=90 => self.maker.held(row),
            91..=95 => self.maker.status(row),
            96..=98 => self.maker.planner(row),
            _ => self.maker.snapshot(row, self.kept.is_some()),
        }
    }

    /// A call that hangs on no agent.
    fn other_call(&mut self, logged: &Logged) -> Call {
        match self.maker.random.below(100) {
            0..=13 => self.maker.plan(),
            14..=17 => self.maker.rom_plan(),
            18 => self.maker.rom_fill(),
            19..=26 => self.maker.skip_plan(),
            27..=42 => self.maker.share(),
            43..=55 => self.maker.write(),
            56..=68 => self.maker.read(&self.row),
            69..=86 => self.maker.next(logged),
            87..=90 => self.maker.waits(logged),
            91..=93 => self.maker.air(logged),
            94..=95 => self.maker.admissions(logged),
            _ => self.maker.salvage(logged),
        }
    }

    /// Puts a call to both and compares what it leaves.
    fn put(&mut self, call: Call) -> Result<(), String> {
        let before = self.row;
        let given = call.put_to(self.a);
        let also = call.put_to(self.b);
        self.row = self.a.agent();
        let other = self.b.agent();
        if given != also || self.row != other {
            return Err(self.difference(&call, &format!("{given:?}"), &format!("{also:?}"), &other));
        }
        if !matches!(call, Call::Lend(_)) {
            self.tally.count(&call, given.answer, self.kept.is_some());
            self.count_cases(&call, given.answer, &before);
        }
        if matches!(call, Call::Fresh { .. }) && given.answer == DONE {
            self.asked.clear();
        }
        self.asked.push(call);
        Ok(())
    }

    fn count_cases(&mut self, call: &Call, answer: u8, before: &AgentRow) {
        let by_hand = self.kept.is_some();
        let refused = answer == OUTSIDE_LIMITS;
        let met = match call {
            Call::RomLane { id, lane, time } => {
                (refused && !by_hand && *id <= ID_MAX && *lane <= LANE_MAX && *time <= ASKED_MAX).then_some(0)
            }
            Call::Air { log, .. } => {
                let within = log.title <= ID_MAX && (POOL_MIN..=POOL_MAX).contains(&log.pool);
                (refused && within).then_some(1)
            }
            Call::Held { time } => (refused && by_hand && *time <= ASKED_MAX).then_some(2),
            Call::Lane { id, lane, .. } if answer == DONE && !by_hand => {
                let view = title(before, *id as usize);
                (!view.is_open() || *lane >= view.number(agent_row::COUNT)).then_some(3)
            }
            Call::Change { id, .. } | Call::Close { id, .. } if answer == DONE && !by_hand => {
                (owed(before, *id) < owed(&self.row, *id)).then_some(4)
            }
            _ => None,
        };
        if let Some(case) = met {
            self.tally.count_case(case);
        }
    }

    /// What was asked since the last fresh agent that changed it, and what was answered.
    fn difference(&mut self, call: &Call, given: &str, also: &str, other: &AgentRow) -> String {
        let mut text = String::new();
        for asked in &self.asked {
            text += &format!("  {asked:?}\n");
        }
        text += &format!("{call:?}\n{}: {given}\n{}: {also}\n", self.a.name(), self.b.name());
        for (place, (one, two)) in self.row.iter().zip(other).enumerate() {
            if one != two {
                let at = match place.checked_sub(agent_row::TITLES_AT) {
                    Some(n) => format!(
                        "title {} number {}",
                        n / agent_row::TITLE_SIZE,
                        n % agent_row::TITLE_SIZE
                    ),
                    None => format!("number {place}"),
                };
                text += &format!(
                    "agent, {at}: {} has {one}, {} has {two}\n",
                    self.a.name(),
                    self.b.name()
                );
            }
        }
        text
    }
}

/// The cells that the lanes of a title owed at their drops.
fn owed(row: &AgentRow, id: u64) -> u64 {
    let from = agent_row::place(id as usize, agent_row::OWED);
    row[from..from + LANES].iter().sum()
}
