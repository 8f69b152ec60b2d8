//! How often each answer of each call was met, by agents that events led to and by agents made by hand.

use super::call::Call;
use crate::refusals::*;
use std::collections::BTreeMap;

/// Every answer of every call (docs/REFUSALS.md).
const ANSWERS: [(&str, &[u8]); 27] = [
    ("fresh", &[DONE, OUTSIDE_LIMITS]),
    ("open", &[DONE, 1, 2, 4, 15, 13, 14, 9]),
    ("skip", &[DONE, 1, 2, 4, 9]),
    ("change", &[DONE, 1, 2, 3, 5, 19, 13, 14, 6, 7, 16, 8, 9]),
    ("close", &[DONE, 1, 2, 3, 5, 7, 8]),
    ("hold", &[DONE, 1, 2, 3, 5, 19, 17, 7, 8]),
    ("lift", &[DONE, 1, 2, 3, 5, 19, 17, 7, 8]),
    (
        "take",
        &[DONE, 11, 12, 1, 2, 3, 4, 5, 6, 7, 8, 9, 13, 14, 15, 16, 17, 19],
    ),
    ("lane", &[DONE, 1, 2, 3]),
    ("rom_lane", &[DONE, 1, 2, 3]),
    ("held", &[DONE, 1, 2]),
    ("status", &[DONE, 10, 1, 2]),
    ("planner", &[DONE, 1, 2, 9, 10, 18]),
    ("plan", &[DONE, 1, 15, 13, 14, 8, 10]),
    ("rom_plan", &[DONE, 1, 13, 14, 8, 10]),
    ("rom_fill", &[DONE, 10]),
    ("skip_plan", &[DONE, 1, 10]),
    ("share", &[DONE, 10, 1, 15, 9]),
    ("write", &[DONE, 10, 1]),
    ("read", &[DONE, 11]),
    ("next", &[DONE, 11, END]),
    ("waits", &[DONE, 1, 10, 11]),
    ("air", &[DONE, 1, 10, 11, 3]),
    ("admissions", &[DONE, 1, 11, 3]),
    ("salvage", &[DONE, 10]),
    ("save", &[DONE, 10, 1]),
    ("load", &[DONE, 11, 1]),
];

/// What is met besides an answer's number: the small box's own 1, the air's second 1, an agent that is no agent.
const CASES: [&str; 5] = [
    "rom_lane 1 for another floor or cap",
    "air 1 for a cell number",
    "an agent out of its limits",
    "a lane that sends",
    "a drop that owes",
];

#[derive(Default)]
pub struct Tally {
    met: BTreeMap<(&'static str, u8), [u64; 2]>,
    cases: BTreeMap<&'static str, u64>,
    pub calls: u64,
    pub sessions: u64,
}

impl Tally {
    pub fn count(&mut self, call: &Call, answer: u8, by_hand: bool) {
        self.calls += 1;
        self.met.entry((call.name(), answer)).or_default()[usize::from(by_hand)] += 1;
    }

    pub fn count_case(&mut self, case: usize) {
        *self.cases.entry(CASES[case]).or_default() += 1;
    }

    fn met(&self, name: &'static str, answer: u8) -> [u64; 2] {
        self.met.get(&(name, answer)).copied().unwrap_or_default()
    }

    /// The answers that were met and that no order has.
    fn strange(&self) -> Vec<String> {
        let listed = |name: &str, answer: u8| ANSWERS.iter().any(|(call, all)| *call == name && all.contains(&answer));
        let strange = self
            .met
            .keys()
            .filter(|(name, answer)| *name != "lend" && !listed(name, *answer));
        strange
            .map(|(name, answer)| format!("{name} answered {answer}"))
            .collect()
    }

    /// The table, and what was never met.
    pub fn table(&self) -> (String, Vec<String>) {
        let mut text = String::from("call        answer   from events   made by hand\n");
        let mut missed = self.strange();
        for (name, answers) in ANSWERS {
            for answer in answers {
                let [listed, by_hand] = self.met(name, *answer);
                let shown = if *answer == END {
                    "end".into()
                } else {
                    answer.to_string()
                };
                text += &format!("{name:<11} {shown:>6} {listed:>13} {by_hand:>14}\n");
                if listed + by_hand == 0 {
                    missed.push(format!("{name} never answered {shown}"));
                }
            }
        }
        for case in CASES {
            let n = self.cases.get(case).copied().unwrap_or_default();
            text += &format!("{case:<36} {n:>9}\n");
            if n == 0 {
                missed.push(format!("{case} was never met"));
            }
        }
        (text, missed)
    }
}
