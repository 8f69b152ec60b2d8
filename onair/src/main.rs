//! On air: a real film, real boxes, a real clock (docs/ON_AIR.md). The runner starts the other parts as processes of their own:
//!
//!     onair run FILM [--boxes N] [--seconds N] [--seed N] [--loss PERCENT] [--swap] [--old]
#![deny(warnings)]

mod boxing;
mod carry;
#[cfg(test)]
mod evening;
mod follower;
mod given;
mod grid;
mod headend;
mod lanes;
mod library;
mod modulating;
mod modulator;
mod operator;
mod play;
mod programs;
mod random;
mod receiver;
mod report;
mod runner;
mod scale;
mod seats;
mod settop;
mod system;
mod tale;
mod wire;
mod words;

use std::process::ExitCode;
use words::Words;

fn main() -> ExitCode {
    let words: Vec<String> = std::env::args().skip(1).collect();
    let told = Words::of(words.iter().map(String::as_str));
    let part = |run: fn(&Words) -> Result<(), String>| {
        system::end_with_parent();
        run(&told).map(|()| true)
    };
    let done = match words.first().map(String::as_str) {
        Some("run") => given::Given::of(&words[1..]).and_then(runner::run),
        Some("modulator") => part(modulating::run),
        Some("receiver") => part(receiver::run),
        Some("box") => part(boxing::run),
        _ => Err(given::USAGE.into()),
    };
    match done {
        Ok(true) => ExitCode::SUCCESS,
        Ok(false) => ExitCode::FAILURE,
        Err(why) => {
            eprintln!("? {why}");
            ExitCode::FAILURE
        }
    }
}
