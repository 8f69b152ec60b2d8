//! The product's console, as it is built, against the model.
//!   console PROGRAM [--lines N] [--seed S]      PROGRAM is one word of the words that start it, an emulator's before its name
//! Its last line says whether everything held.

#![deny(warnings)]

use bench::compare::script;
use bench::model::Model;
use bench::replay::console::replay;
use std::io::Write;
use std::process::{Command, ExitCode, Stdio};

/// The number behind a word, or another.
fn behind(words: &[String], word: &str, other: u64) -> u64 {
    let number = words.iter().skip_while(|w| *w != word).nth(1);
    number.and_then(|number| number.parse().ok()).unwrap_or(other)
}

/// What a program writes for an input.
fn output_of(program: &str, input: String) -> Result<String, String> {
    let said = |why: std::io::Error| format!("{program}: {why}");
    let mut words = program.split_whitespace();
    let mut command = Command::new(words.next().ok_or("which program?")?);
    let mut child = command
        .args(words)
        .stdin(Stdio::piped())
        .stdout(Stdio::piped())
        .spawn()
        .map_err(said)?;
    let mut stdin = child.stdin.take().ok_or("no standard input")?;
    // written apart, so that neither side waits for the other
    let writer = std::thread::spawn(move || stdin.write_all(input.as_bytes()));
    let output = child.wait_with_output().map_err(said)?;
    writer.join().map_err(|_| "the writer failed")?.map_err(said)?;
    String::from_utf8(output.stdout).map_err(|why| why.to_string())
}

fn run(words: &[String]) -> Result<usize, String> {
    let program = words.first().ok_or("which program?")?;
    let lines = behind(words, "--lines", 100_000) as usize;
    let seed = behind(words, "--seed", 35);
    println!("seed {seed}");
    let text = script(seed, lines);
    let answers = output_of(program, text.clone())?;
    replay(&mut Model::new(), &text, &answers)
}

fn main() -> ExitCode {
    let words: Vec<String> = std::env::args().skip(1).collect();
    match run(&words) {
        Ok(agreed) => {
            println!("{agreed} answers agreed\nheld");
            ExitCode::SUCCESS
        }
        Err(why) => {
            println!("{why}\nnot held");
            ExitCode::FAILURE
        }
    }
}
