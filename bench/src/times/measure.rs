//! Nanoseconds per call. Rounds are short and many, and the best counts: everything else that runs only adds to one. Two
//! subjects take turns, round by round, so that the machine's moods meet both.

use super::cases::{all, Case};
use super::clock;
use super::scenes::Logs;
use crate::refusals::DONE;
use crate::subject::Subject;
use std::hint::black_box;
use std::time::Duration;

/// What a case took for each of two subjects.
pub struct Timing {
    pub name: &'static str,
    pub size: Option<u64>,
    pub nanoseconds: [f64; 2],
}

const ROUND: Duration = Duration::from_micros(200);
const ROUNDS: u32 = 200;
/// A call that is longer than a round is run a few times only.
const FEW: u32 = 7;

/// How long so many runs take, each.
fn round(many: u32, mut run: impl FnMut()) -> f64 {
    let begun = clock::now();
    for _ in 0..many {
        run();
    }
    (clock::now() - begun).as_nanos() as f64 / f64::from(many)
}

/// How many runs fill a round.
fn filling(run: impl FnMut()) -> u32 {
    let once = round(3, run).max(1.0);
    (ROUND.as_nanos() as f64 / once).clamp(1.0, 100_000.0) as u32
}

/// A subject, one of its cases, and the best rounds so far: of the call, and of lending alone where the call changes the agent.
struct Runner<'a, S: Subject> {
    subject: &'a mut S,
    case: Case<S>,
    many: u32,
    best: [f64; 2],
}

impl<'a, S: Subject> Runner<'a, S> {
    fn new(subject: &'a mut S, mut case: Case<S>) -> Runner<'a, S> {
        if let Some(row) = &case.lent {
            subject.lend(row);
        }
        assert_eq!((case.call)(subject), DONE, "{} is refused", case.name);
        let mut runner = Runner {
            subject,
            case,
            many: 1,
            best: [f64::MAX; 2],
        };
        runner.many = filling(|| runner.run());
        runner
    }

    fn run(&mut self) {
        if self.case.changes {
            self.lend();
        }
        black_box((self.case.call)(self.subject));
    }

    fn lend(&mut self) {
        if let Some(row) = &self.case.lent {
            self.subject.lend(black_box(row));
        }
    }

    fn round(&mut self) {
        self.best[0] = self.best[0].min(round(self.many, || self.run()));
        if self.case.changes {
            self.best[1] = self.best[1].min(round(self.many, || self.lend()));
        }
    }

    /// The call without the lending.
    fn nanoseconds(&self) -> f64 {
        if self.case.changes {
            (self.best[0] - self.best[1]).max(0.0)
        } else {
            self.best[0]
        }
    }
}

fn timing<A: Subject, B: Subject>(mut first: Runner<A>, mut second: Runner<B>) -> Timing {
    let rounds = if first.many > 1 { ROUNDS } else { FEW };
    for _ in 0..rounds {
        first.round();
        second.round();
    }
    Timing {
        name: first.case.name,
        size: first.case.size,
        nanoseconds: [first.nanoseconds(), second.nanoseconds()],
    }
}

/// The cases whose names have a word, for two subjects.
pub fn timings<A: Subject, B: Subject>(first: &mut A, second: &mut B, word: &str) -> Vec<Timing> {
    let cases = all::<A>(Logs::Full).into_iter().zip(all::<B>(Logs::Full));
    let cases = cases.filter(|(case, _)| case.name.contains(word));
    let timed = cases.map(|(one, two)| timing(Runner::new(first, one), Runner::new(second, two)));
    timed.collect()
}
