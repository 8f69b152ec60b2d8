//! What the command line says of a run.

use crate::scale::{SECONDS_MAX, SECONDS_MIN};
use std::str::FromStr;

const BOXES_MAX: u64 = 1_000;

/// What the command line says.
#[derive(Clone, Debug, PartialEq)]
pub struct Given {
    pub film: String,
    pub boxes: u64,
    pub seconds: u64,
    pub seed: u64,
    pub loss: f64,
    pub swap: bool,
    pub old: bool,
    pub folder: String,
}

pub const USAGE: &str =
    "usage: onair/run FILM [--boxes N] [--seconds N] [--seed N] [--loss PERCENT] [--swap] [--old] [--folder FOLDER]";

/// The repository's folder.
pub fn root() -> String {
    std::env::var("ONAIR_ROOT").unwrap_or_else(|_| ".".into())
}

fn number<T: FromStr>(word: Option<&String>, name: &str) -> Result<T, String> {
    word.and_then(|word| word.parse().ok()).ok_or_else(|| format!("{name} wants a number: {USAGE}"))
}

impl Given {
    pub fn of(words: &[String]) -> Result<Given, String> {
        let (mut film, folder) = (None, root() + "/target/onair/run");
        let mut given =
            Given { film: String::new(), boxes: 100, seconds: 60, seed: 1, loss: 0.0, swap: false, old: false, folder };
        let mut words = words.iter();
        while let Some(word) = words.next() {
            match word.as_str() {
                "--boxes" => given.boxes = number(words.next(), word)?,
                "--seconds" => given.seconds = number(words.next(), word)?,
                "--seed" => given.seed = number(words.next(), word)?,
                "--loss" => given.loss = number(words.next(), word)?,
                "--swap" => given.swap = true,
                "--old" => given.old = true,
                "--folder" => given.folder = words.next().ok_or(USAGE)?.clone(),
                _ if word.starts_with('-') || film.is_some() => return Err(format!("{word}: {USAGE}")),
                _ => film = Some(word.clone()),
            }
        }
        given.film = film.ok_or(USAGE)?;
        given.limits()?;
        Ok(given)
    }

    fn limits(&self) -> Result<(), String> {
        if !(SECONDS_MIN..=SECONDS_MAX).contains(&self.seconds) {
            return Err(format!("a run has {SECONDS_MIN} to {SECONDS_MAX} seconds"));
        }
        if !(1..=BOXES_MAX).contains(&self.boxes) {
            return Err(format!("a run has 1 to {BOXES_MAX} boxes"));
        }
        if !(0.0..=50.0).contains(&self.loss) {
            return Err("--loss is 0 to 50 of a hundred".into());
        }
        if self.old && self.loss > 0.0 {
            return Err("--old shows what the order is for, and is run without --loss".into());
        }
        Ok(())
    }
}

#[cfg(test)]
mod tests {
    use super::*;

    fn given(line: &str) -> Result<Given, String> {
        Given::of(&line.split_whitespace().map(str::to_string).collect::<Vec<_>>())
    }

    #[test]
    fn the_command_line_is_read() {
        let read = given("film.ts --boxes 40 --seconds 20 --seed 7 --loss 1.5 --swap").expect("read");
        assert_eq!((read.boxes, read.seconds, read.seed, read.loss), (40, 20, 7, 1.5));
        assert_eq!((read.swap, read.old, read.film.as_str()), (true, false, "film.ts"));
        assert!(
            given("").is_err() && given("a b").is_err() && given("a --boxes").is_err() && given("a --fast").is_err()
        );
        assert!(given("a --old --loss 1").is_err());
        assert!(given("a --seconds 5").is_err() && given("a --boxes 0").is_err() && given("a --loss 51").is_err());
    }
}
