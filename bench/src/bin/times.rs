//! Times and stacks of the tuned version, and of the product's library beside it where that is linked.
//!   times [--only WORD] [--plot FILE] [--write FILE]    nanoseconds of each call, the growth as a picture
//!   times --stack [--write FILE]                        the deepest stack of each call
//! Without the library the tuned version is timed beside itself: how far the ratios are from 1 says how far the machine is
//! to be trusted. With `--write` the tables go into a page too.

#![deny(warnings)]

use bench::page;
use bench::times::goals::Goals;
use bench::times::{deepest, plot, stacks, table, timings, Measure};
use bench::tuned::Tuned;
use std::process::ExitCode;

#[cfg(feature = "library")]
use bench::library::Library as Second;
#[cfg(not(feature = "library"))]
use bench::tuned::Tuned as Second;

/// How deep the second subject goes: in this program, or in the driver that answers for it.
#[cfg(not(feature = "emulated"))]
const DEEPEST: Measure = deepest;
#[cfg(feature = "emulated")]
const DEEPEST: Measure = bench::library::emulated::deepest;

const NAMES: [&str; 2] = ["tuned", if cfg!(feature = "library") { "library" } else { "again" }];

/// The word behind another.
fn behind<'a>(words: &'a [String], word: &str) -> Option<&'a String> {
    words.iter().skip_while(|w| *w != word).nth(1)
}

/// Prints tables, and writes each into its block of a page.
fn tell(words: &[String], tables: &[(&str, String)]) -> Result<(), String> {
    for (block, table) in tables {
        println!("{table}");
        if let Some(file) = behind(words, "--write") {
            page::write(file, block, table)?;
        }
    }
    Ok(())
}

/// Which machines' code the two are: an emulated library is x86-64 code, and goes as deep as on an x86-64 machine.
fn machines() -> String {
    let here = std::env::consts::ARCH;
    match cfg!(feature = "emulated") {
        true => format!("tuned is {here} code, the library x86-64 code under an emulator\n"),
        false => format!("both are {here} code\n"),
    }
}

fn tell_stacks(words: &[String]) -> Result<(), String> {
    let taken = [stacks(&mut Tuned::new(), deepest), stacks(&mut Second::new(), DEEPEST)];
    let table = table::stacks(NAMES, [&taken[0], &taken[1]]) + &machines();
    let goals = Goals::of_stacks(&taken[1]).told();
    tell(words, &[("stacks", table), ("stack goals", goals)])
}

fn tell_times(words: &[String]) -> Result<(), String> {
    let only = behind(words, "--only").map_or("", |word| word);
    let timed = timings(&mut Tuned::new(), &mut Second::new(), only);
    let tables = [
        ("times", table::times(NAMES, &timed) + &machines()),
        ("growth", table::growth(NAMES, &timed)),
        ("time goals", Goals::of_times(&timed).told()),
    ];
    tell(words, &tables)?;
    match behind(words, "--plot") {
        Some(file) => std::fs::write(file, plot::plot(NAMES, &timed)).map_err(|why| format!("{file}: {why}")),
        None => Ok(()),
    }
}

fn main() -> ExitCode {
    let words: Vec<String> = std::env::args().skip(1).collect();
    let told = if words.iter().any(|word| word == "--stack") {
        tell_stacks(&words)
    } else {
        tell_times(&words)
    };
    match told {
        Ok(()) => ExitCode::SUCCESS,
        Err(why) => {
            eprintln!("? {why}");
            ExitCode::FAILURE
        }
    }
}
