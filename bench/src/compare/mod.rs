//! Two subjects against each other: random calls from a seed, valid and damaged, everything compared number for number.

mod by_hand;
mod call;
mod damage;
mod events;
mod logs;
mod maker;
mod questions;
mod script;
mod session;
mod snapshots;
mod tally;
mod titles;

pub use call::{Call, Outcome};
pub use script::script;
pub use session::Session;
pub use tally::Tally;

use crate::random::Random;
use crate::subject::Subject;

/// What is run: so many calls from a seed, from a session on.
pub struct Run {
    pub seed: u64,
    pub calls: u64,
    pub session: u64,
}

/// Runs sessions until there were enough calls; the first difference ends it.
pub fn compare<A: Subject, B: Subject>(a: &mut A, b: &mut B, run: &Run) -> Result<Tally, String> {
    let mut tally = Tally::default();
    let mut session = run.session;
    while tally.calls < run.calls {
        let mut seeds = Random::new(run.seed ^ session.wrapping_mul(0x2545_f491_4f6c_dd1d));
        let most = run.calls - tally.calls;
        let seed = seeds.draw();
        let held = Session::new(a, b, &mut tally, seed).run(most);
        if let Err(difference) = held {
            return Err(format!(
                "{difference}found with --seed {} --session {session}",
                run.seed
            ));
        }
        session += 1;
    }
    Ok(tally)
}
