//! Follows a log of notices, and says how many lanes are held after each. Half way it saves a snapshot, from which a second
//! agent goes on: at the end both are the same.
//!
//!     follow LOG SNAPSHOT
//!
//! Plain rustc builds it:
//!
//!     rustc --edition 2021 -O -L target/staticlib -l static=rongalishu -o target/follow examples/follow.rs

use std::fmt;
use std::fs;
use std::process::ExitCode;

/// What the library exports (include/rongalishu.h), as far as it is called here.
mod raw {
    extern "C" {
        pub fn rl_fresh_row(agent: *mut u64, agent_len: usize, pool: u64) -> u8;
        pub fn rl_take_row(agent: *mut u64, agent_len: usize, bytes: *const u8, bytes_len: usize) -> u8;
        pub fn rl_held_row(agent: *const u64, agent_len: usize, time: u64, lanes: *mut u64, lanes_len: usize) -> u8;
        pub fn rl_next_row(
            log: *const u8,
            log_len: usize,
            place: *mut u64,
            place_len: usize,
            fields: *mut u64,
            fields_len: usize,
        ) -> u8;
        pub fn rl_save_row(agent: *const u64, agent_len: usize, room: *mut u8, room_len: usize) -> u8;
        pub fn rl_load_row(agent: *mut u64, agent_len: usize, bytes: *const u8, bytes_len: usize) -> u8;
    }
}

const POOL: u64 = 8;
const AGENT_NUMBERS: usize = 756;
const SNAPSHOT_BYTES: usize = 6_052;
/// Where an agent keeps the time of its last accepted event.
const LAST_AT: usize = 3;
const END: u8 = 255;

const WORDS: [&str; 20] = [
    "done",
    "number out of range",
    "earlier than an accepted event",
    "title not there or lane not held",
    "id still in use",
    "title is closing",
    "count unchanged",
    "title has an event at this time",
    "not at a permitted slot start",
    "too few free lanes",
    "rows do not match or room too short",
    "malformed notice",
    "notice out of turn",
    "below the floor",
    "above the cap",
    "floor above its cap",
    "change too soon",
    "doors already held or lifted",
    "an event would fall after the clock's last time",
    "a skip-forward title has a steady count and no doors to hold",
];

/// A refusal's number; nothing that was lent has changed.
#[derive(Clone, Copy, Debug, PartialEq, Eq)]
struct Refusal(u8);

impl fmt::Display for Refusal {
    fn fmt(&self, f: &mut fmt::Formatter) -> fmt::Result {
        let words = WORDS.get(usize::from(self.0)).unwrap_or(&"no answer of this library");
        write!(f, "{} {words}", self.0)
    }
}

fn done(answer: u8) -> Result<(), Refusal> {
    if answer == 0 {
        Ok(())
    } else {
        Err(Refusal(answer))
    }
}

/// An agent is plain data: it can be copied, stored and compared.
#[derive(Clone, PartialEq, Eq)]
struct Agent(Box<[u64; AGENT_NUMBERS]>);

// SAFETY of every call below: a pointer and its length are those of one row, which lives and is not shared while it runs
impl Agent {
    fn fresh(pool: u64) -> Result<Agent, Refusal> {
        let mut agent = Agent(Box::new([0; AGENT_NUMBERS]));
        done(unsafe { raw::rl_fresh_row(agent.0.as_mut_ptr(), AGENT_NUMBERS, pool) })?;
        Ok(agent)
    }

    fn take(&mut self, bytes: &[u8]) -> Result<(), Refusal> {
        done(unsafe { raw::rl_take_row(self.0.as_mut_ptr(), AGENT_NUMBERS, bytes.as_ptr(), bytes.len()) })
    }

    /// Lanes held at the time of the last accepted event.
    fn held(&self) -> Result<u64, Refusal> {
        let mut lanes = 0;
        done(unsafe { raw::rl_held_row(self.0.as_ptr(), AGENT_NUMBERS, self.0[LAST_AT], &mut lanes, 1) })?;
        Ok(lanes)
    }

    fn save(&self) -> Result<Vec<u8>, Refusal> {
        let mut bytes = vec![0; SNAPSHOT_BYTES];
        done(unsafe { raw::rl_save_row(self.0.as_ptr(), AGENT_NUMBERS, bytes.as_mut_ptr(), bytes.len()) })?;
        Ok(bytes)
    }

    fn load(bytes: &[u8]) -> Result<Agent, Refusal> {
        let mut agent = Agent(Box::new([0; AGENT_NUMBERS]));
        done(unsafe { raw::rl_load_row(agent.0.as_mut_ptr(), AGENT_NUMBERS, bytes.as_ptr(), bytes.len()) })?;
        Ok(agent)
    }
}

/// The notices of a log, each as its sequence and its bytes; the first place that has none ends it with a refusal.
struct Notices<'a> {
    log: &'a [u8],
    place: u64,
    failed: bool,
}

impl<'a> Iterator for Notices<'a> {
    type Item = Result<(u64, &'a [u8]), Refusal>;

    fn next(&mut self) -> Option<Self::Item> {
        if self.failed {
            return None;
        }
        let begins = self.place as usize;
        let mut fields = [0; 8];
        let (log, place) = (self.log, &mut self.place);
        let answer = unsafe { raw::rl_next_row(log.as_ptr(), log.len(), place, 1, fields.as_mut_ptr(), fields.len()) };
        match answer {
            0 => Some(Ok((fields[1], &log[begins..self.place as usize]))),
            END => None,
            number => {
                self.failed = true;
                Some(Err(Refusal(number)))
            }
        }
    }
}

/// Hands a notice to an agent and says what became of it.
fn hear(name: &str, agent: &mut Agent, (sequence, bytes): (u64, &[u8])) -> Result<(), Refusal> {
    match agent.take(bytes) {
        Ok(()) => println!("{name} takes notice {sequence}: {} lanes held", agent.held()?),
        Err(refusal) => println!("{name} refuses notice {sequence}: {refusal}"),
    }
    Ok(())
}

/// Writes a snapshot to a file, and reads it back into an agent.
fn saved_and_loaded(agent: &Agent, file: &str) -> Result<Agent, String> {
    let bytes = agent.save().map_err(|refusal| format!("save: {refusal}"))?;
    fs::write(file, &bytes).map_err(|why| format!("{file}: {why}"))?;
    println!("the first agent is saved, {} bytes", bytes.len());
    let bytes = fs::read(file).map_err(|why| format!("{file}: {why}"))?;
    Agent::load(&bytes).map_err(|refusal| format!("{file}: {refusal}"))
}

fn follow(log: &str, snapshot: &str) -> Result<(), String> {
    let told = |refusal: Refusal| format!("{log}: {refusal}");
    let bytes = fs::read(log).map_err(|why| format!("{log}: {why}"))?;
    let notices = Notices {
        log: &bytes,
        place: 0,
        failed: false,
    };
    let notices: Vec<_> = notices.collect::<Result<_, _>>().map_err(told)?;
    let (before, behind) = notices.split_at(notices.len() / 2);

    let mut first = Agent::fresh(POOL).map_err(told)?;
    for notice in before {
        hear("first", &mut first, *notice).map_err(told)?;
    }
    let mut second = saved_and_loaded(&first, snapshot)?;
    for notice in behind {
        hear("first", &mut first, *notice).map_err(told)?;
        hear("second", &mut second, *notice).map_err(told)?;
    }
    if first != second {
        return Err("the agents differ".into());
    }
    println!("both agents are the same");
    Ok(())
}

fn main() -> ExitCode {
    let words: Vec<String> = std::env::args().skip(1).collect();
    let followed = match &words[..] {
        [log, snapshot] => follow(log, snapshot),
        _ => Err("follow LOG SNAPSHOT".into()),
    };
    match followed {
        Ok(()) => ExitCode::SUCCESS,
        Err(why) => {
            eprintln!("? {why}");
            ExitCode::FAILURE
        }
    }
}
