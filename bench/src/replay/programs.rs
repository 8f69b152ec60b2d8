//! The programs over logs (docs/PROGRAMS.md): what a subject answers, as the program prints it.

use crate::agent_row::LAST_AT;
use crate::refusals::{DONE, END, MALFORMED};
use crate::subject::{PlayedLog, Subject};

/// The listing's pool.
const POOL: u64 = 8;

fn held_now<S: Subject>(subject: &mut S) -> u64 {
    let last = subject.agent()[LAST_AT];
    subject.held(last).1
}

/// A line for each notice of a log: sequence, kind, title, answer, lanes held.
pub fn listing<S: Subject>(subject: &mut S, log: &[u8]) -> String {
    subject.fresh(POOL);
    let mut text = String::new();
    let mut place = 0;
    loop {
        let mut fields = [0; 8];
        let (answer, after) = subject.next(log, place, &mut fields);
        match answer {
            END => return text,
            MALFORMED => return text + &format!("- - - 11 {}\n", held_now(subject)),
            _ => (),
        }
        let answer = subject.take(&log[place as usize..after as usize]);
        let [kind, sequence, title, ..] = fields;
        text += &format!("{sequence} {kind} {title} {answer} {}\n", held_now(subject));
        place = after;
    }
}

/// The report of waits.
pub fn waits<S: Subject>(subject: &mut S, log: PlayedLog, arrivals: &str) -> String {
    let arrivals: Vec<u64> = arrivals
        .split_whitespace()
        .filter_map(|word| word.parse().ok())
        .collect();
    let (answer, [all, admitted, longest, sum]) = subject.waits(log, &arrivals);
    if answer != DONE {
        return format!("{answer}\n");
    }
    // to the nearest ms
    let mean = (sum + admitted / 2).checked_div(admitted).unwrap_or(0);
    format!(
        "arrivals {all}\nadmitted {admitted}\nturned away {}\nlongest wait {longest} ms\nsum of waits {sum} ms\nmean wait {mean} ms\n",
        all - admitted
    )
}

/// A record of the air from its text, a line for each tick.
pub fn record_of(text: &str) -> Vec<u16> {
    let words = text.split_whitespace();
    words.map(|word| word.parse().unwrap_or(u16::MAX)).collect()
}

/// What became of each admission of a record.
pub fn air<S: Subject>(subject: &mut S, log: PlayedLog, record: &[u16]) -> String {
    let ticks = record.len() / 12;
    let mut row = vec![0; ticks];
    let mut marks = vec![0; ticks];
    let (answer, [judged, played, outlast]) = subject.air(log, record, &mut row);
    if answer != DONE || subject.admissions(log, &mut marks) != DONE {
        return format!("{answer}\n");
    }
    let starts = (0..ticks).filter(|tick| marks[*tick] == 1);
    let mut text = String::new();
    for (start, missed) in starts.zip(&row[..judged as usize]) {
        let missed = if *missed == u16::MAX {
            "-".into()
        } else {
            missed.to_string()
        };
        text += &format!("{start} {missed}\n");
    }
    text + &format!(
        "played through {played}\nstarved {}\noutlast the record {outlast}\n",
        judged - played
    )
}

/// What is left of a damaged log, and what is told of it; gaps in the sequences are not.
pub fn salvage<S: Subject>(subject: &mut S, log: &[u8]) -> (Vec<u8>, String) {
    let mut area = vec![0; log.len()];
    let mut row = vec![0; 2 * log.len()];
    let (_, [notices, bytes, stretches]) = subject.salvage(log, &mut area, &mut row);
    area.truncate(bytes as usize);
    let mut text = String::new();
    for stretch in row[..2 * stretches as usize].chunks(2) {
        text += &format!("skipped {} {}\n", stretch[0], stretch[1]);
    }
    (area, text + &format!("taken {notices} notices, {bytes} bytes\n"))
}
