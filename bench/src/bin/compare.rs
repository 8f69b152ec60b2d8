//! The tuned version, and the product's library where it is linked, against the model.
//!   compare [--calls N] [--seed S] [--session N] [--write FILE]
//! Each gets so many calls. Its last line says whether everything held; the table of answers goes into a page too.

#![deny(warnings)]

use bench::compare::{compare, Run};
use bench::model::Model;
use bench::page;
use bench::subject::Subject;
use bench::tuned::Tuned;
use std::process::ExitCode;
use std::time::{Instant, SystemTime, UNIX_EPOCH};

/// What is asked for: a run, and the page that its table goes into.
struct Asked {
    run: Run,
    page: Option<String>,
}

fn seed_of_the_clock() -> u64 {
    let since = SystemTime::now().duration_since(UNIX_EPOCH);
    since.map_or(1, |since| since.as_nanos() as u64)
}

fn asked(mut words: impl Iterator<Item = String>) -> Result<Asked, String> {
    let mut run = Run {
        seed: seed_of_the_clock(),
        calls: 1_000_000,
        session: 0,
    };
    let mut page = None;
    while let Some(word) = words.next() {
        let next = words.next().ok_or(format!("{word} wants a word behind it"))?;
        if word == "--write" {
            page = Some(next);
            continue;
        }
        let number = next.replace('_', "").parse();
        let number: u64 = number.map_err(|_| format!("{word} wants a number"))?;
        match word.as_str() {
            "--calls" => run.calls = number,
            "--seed" => run.seed = number,
            "--session" => run.session = number,
            _ => return Err(format!("unknown word {word}")),
        }
    }
    Ok(Asked { run, page })
}

/// A subject against the model: the table of answers, or what differs or was never met.
fn held(mut subject: impl Subject, run: &Run) -> Result<String, String> {
    let begun = Instant::now();
    let tally = compare(&mut Model::new(), &mut subject, run)?;
    let (table, missed) = tally.table();
    let (calls, sessions, seconds) = (tally.calls, tally.sessions, begun.elapsed().as_secs_f64());
    println!(
        "{}: {calls} calls in {sessions} sessions, {seconds:.1} s",
        subject.name()
    );
    if missed.is_empty() {
        return Ok(format!("{calls} calls, seed {}\n{table}", run.seed));
    }
    Err(format!("{table}{}", missed.join("\n")))
}

/// All subjects. What is asked hangs on the model alone, so that every subject has the same table.
fn all_held(run: &Run) -> Result<String, String> {
    let table = held(Tuned::new(), run)?;
    #[cfg(feature = "library")]
    held(bench::library::Library::new(), run)?;
    Ok(table)
}

fn run() -> Result<(), String> {
    let asked = asked(std::env::args().skip(1)).map_err(|why| format!("? {why}"))?;
    println!("seed {}", asked.run.seed);
    let table = all_held(&asked.run)?;
    println!("{table}");
    match asked.page {
        Some(file) => page::write(&file, "answers", &table),
        None => Ok(()),
    }
}

fn main() -> ExitCode {
    match run() {
        Ok(()) => {
            println!("held");
            ExitCode::SUCCESS
        }
        Err(why) => {
            println!("{why}\nnot held");
            ExitCode::FAILURE
        }
    }
}
