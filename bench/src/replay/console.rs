//! The console's stored scripts (docs/CONSOLE.md): each line is asked of a subject, and its answer held against the stored
//! one. Of a refusal the number is compared, and a line that could not be read is left out.

use crate::agent_row::{self, LAST_AT};
use crate::limits::TITLES;
use crate::refusals::DONE;
use crate::subject::{Fields, Film, PlannerRows, Sharers, Start, StatusRows, Subject};

const KINDS: [&str; 6] = ["open", "change", "close", "hold", "lift", "skip"];
const PLACES: usize = 4_096;

/// How many answers agreed, or the first that did not.
pub fn replay<S: Subject>(subject: &mut S, script: &str, stored: &str) -> Result<usize, String> {
    subject.fresh(8);
    let mut answers = stored.lines();
    let mut agreed = 0;
    for (i, line) in script.split('\n').enumerate() {
        let words: Vec<&str> = line.split([' ', '\t', '\r']).filter(|w| !w.is_empty()).collect();
        if (words.is_empty() || words[0].starts_with('#')) && line.len() < PLACES {
            continue;
        }
        if words == ["help"] {
            answers = skip_list(answers);
            continue;
        }
        let expected = answers.next().ok_or(format!("line {}: no answer is stored", i + 1))?;
        if expected.starts_with('?') {
            continue;
        }
        let given = ask(subject, &words).ok_or(format!("line {}: not read: {line}", i + 1))?;
        if !agrees(&given, expected) {
            return Err(format!(
                "line {}: {line}: stored {expected}, {} says {given}",
                i + 1,
                subject.name()
            ));
        }
        agreed += 1;
    }
    match answers.next() {
        None => Ok(agreed),
        Some(more) => Err(format!("no line asks for the stored answer {more}")),
    }
}

/// The list of commands has a line for each, which begins with its word.
fn skip_list<'a>(mut answers: std::str::Lines<'a>) -> std::str::Lines<'a> {
    let mut rest = answers.clone();
    while answers
        .next()
        .is_some_and(|line| line.starts_with(|c: char| c.is_ascii_lowercase()))
    {
        rest = answers.clone();
    }
    rest
}

/// A refusal's words are not compared.
fn agrees(given: &str, stored: &str) -> bool {
    let number = given.split(' ').next().unwrap_or_default();
    let refused = number.len() <= 2 && number != "0";
    if refused {
        stored.split(' ').next() == Some(number)
    } else {
        given == stored
    }
}

/// A number too large counts as the largest.
fn number(word: &str) -> Option<u64> {
    let digits = !word.is_empty() && word.bytes().all(|b| b.is_ascii_digit());
    digits.then(|| word.parse().unwrap_or(u64::MAX))
}

fn narrow(number: u64) -> u32 {
    u32::try_from(number).unwrap_or(u32::MAX)
}

fn ask<S: Subject>(subject: &mut S, words: &[&str]) -> Option<String> {
    let (word, rest) = words.split_first()?;
    match *word {
        "write" => return written(subject, rest),
        "read" => return read(subject, &bytes(rest)?),
        "notice" => {
            let answer = subject.take(&bytes(rest)?);
            return Some(with_held(subject, answer));
        }
        _ => (),
    }
    let numbers: Vec<u64> = rest.iter().map(|w| number(w)).collect::<Option<_>>()?;
    act(subject, word, &numbers)
        .or_else(|| question(subject, word, &numbers))
        .or_else(|| plan(subject, word, &numbers))
}

/// The events, with the lanes held behind the 0.
fn act<S: Subject>(subject: &mut S, word: &str, numbers: &[u64]) -> Option<String> {
    let answer = match (word, numbers) {
        ("fresh", [pool]) => return Some(fresh(subject, *pool).to_string()),
        ("open", [id, time, length, floor, cap, count]) => {
            let film = Film {
                length: *length,
                floor: *floor,
                cap: *cap,
                count: *count,
            };
            subject.open(*id, *time, film)
        }
        ("skip", [id, time, length, count]) => subject.skip(*id, *time, *length, *count),
        ("change", [id, time, count]) => subject.change(*id, *time, *count),
        ("close", [id, time]) => subject.close(*id, *time),
        ("hold", [id, time]) => subject.hold(*id, *time),
        ("lift", [id, time]) => subject.lift(*id, *time),
        _ => return None,
    };
    Some(with_held(subject, answer))
}

/// The console's agent is handed on by value: a refused fresh call gives the pool of 0 (01, "Numbers that calls give back").
pub fn fresh<S: Subject>(subject: &mut S, pool: u64) -> u8 {
    let answer = subject.fresh(pool);
    if answer != DONE {
        subject.lend(&agent_row::fresh(0));
    }
    answer
}

fn with_held<S: Subject>(subject: &mut S, answer: u8) -> String {
    if answer != DONE {
        return answer.to_string();
    }
    let last = subject.agent()[LAST_AT];
    told(DONE, &[subject.held(last).1])
}

/// The answer, and the numbers behind a 0.
fn told(answer: u8, numbers: &[u64]) -> String {
    let mut text = answer.to_string();
    if answer == DONE {
        for number in numbers {
            text += &format!(" {number}");
        }
    }
    text
}

fn question<S: Subject>(subject: &mut S, word: &str, numbers: &[u64]) -> Option<String> {
    match (word, numbers) {
        ("lane", [id, lane, time]) => {
            let (answer, cell) = subject.lane(*id, *lane, *time);
            Some(told(answer, &[cell]))
        }
        ("romlane", [id, lane, time]) => {
            let (answer, cell) = subject.rom_lane(*id, *lane, *time);
            Some(told(answer, &[cell]))
        }
        ("status", [time, ids @ ..]) => Some(status(subject, *time, ids)),
        ("share", [pool, titles @ ..]) => Some(share(subject, *pool, titles)),
        ("planner", [time, room, rates @ ..]) => Some(planner(subject, *time, *room as usize, rates)),
        _ => None,
    }
}

fn status<S: Subject>(subject: &mut S, time: u64, ids: &[u64]) -> String {
    let mut counts = vec![0; ids.len()];
    let mut held = vec![0; ids.len()];
    let mut marks = vec![0; ids.len()];
    let rows = StatusRows {
        counts: &mut counts,
        held: &mut held,
        marks: &mut marks,
    };
    let answer = subject.status(time, ids, rows);
    let each = (0..ids.len()).flat_map(|i| [ids[i], counts[i], held[i], marks[i]]);
    told(answer, &each.collect::<Vec<_>>())
}

fn share<S: Subject>(subject: &mut S, pool: u64, titles: &[u64]) -> String {
    let column = |i: usize| -> Vec<u32> { titles.iter().skip(i).step_by(4).map(|n| narrow(*n)).collect() };
    let (rates, lengths, floors, caps) = (column(0), column(1), column(2), column(3));
    let mut counts = vec![0; rates.len()];
    let rows = Sharers {
        rates: &rates,
        lengths: &lengths,
        floors: &floors,
        caps: &caps,
    };
    let answer = subject.share(pool, rows, &mut counts);
    let counts: Vec<u64> = counts.into_iter().map(u64::from).collect();
    told(answer, &counts)
}

fn planner<S: Subject>(subject: &mut S, time: u64, room: usize, rates: &[u64]) -> String {
    let rates: Vec<u32> = rates.iter().map(|n| narrow(*n)).collect();
    let room = room.min(TITLES);
    let (mut ids, mut times, mut counts) = (vec![0; room], vec![0; room], vec![0; room]);
    let rows = PlannerRows {
        ids: &mut ids,
        times: &mut times,
        counts: &mut counts,
    };
    let (answer, many) = subject.planner(time, &rates, rows);
    let each = (0..many as usize).flat_map(|i| [ids[i], times[i], counts[i]]);
    told(answer, &each.collect::<Vec<_>>())
}

fn plan<S: Subject>(subject: &mut S, word: &str, numbers: &[u64]) -> Option<String> {
    let (given, places) = match (word, numbers) {
        ("plan" | "romplan", [given @ .., places]) if given.len() == 4 => (given, *places as usize),
        ("skipplan", [given @ .., places]) if given.len() == 2 => (given, *places as usize),
        ("plan" | "romplan" | "skipplan", given) => (given, PLACES),
        _ => return None,
    };
    let mut row = vec![0; places];
    let (answer, cells) = match (word, given) {
        ("skipplan", [count, arrival]) => (subject.skip_plan(*count, *arrival, &mut row), count.wrapping_sub(1)),
        (_, [floor, cap, count, arrival]) => {
            let start = Start {
                floor: *floor,
                cap: *cap,
                count: *count,
                arrival: *arrival,
            };
            let answer = match word {
                "plan" => subject.plan(start, &mut row),
                _ => subject.rom_plan(start, &mut row),
            };
            (answer, *cap)
        }
        _ => return None,
    };
    let mut text = answer.to_string();
    if answer == DONE {
        for tick in &row[..1 << cells] {
            text += &if *tick == u16::MAX {
                " -".into()
            } else {
                format!(" {tick}")
            };
        }
    }
    Some(text)
}

fn bytes(words: &[&str]) -> Option<Vec<u8>> {
    let [hex] = words else { return None };
    let pairs = (0..hex.len()).step_by(2);
    pairs.map(|i| u8::from_str_radix(hex.get(i..i + 2)?, 16).ok()).collect()
}

/// Which places of a notice's row the numbers of a kind stand in, behind title and time.
fn own_fields(kind: usize) -> &'static [usize] {
    match kind {
        1 => &[4, 5, 6, 7],
        2 => &[7],
        6 => &[4, 7],
        _ => &[],
    }
}

fn written<S: Subject>(subject: &mut S, words: &[&str]) -> Option<String> {
    let [sequence, kind, rest @ ..] = words else {
        return None;
    };
    let kind = KINDS.iter().position(|k| k == kind)? + 1;
    let mut fields: Fields = [kind as u64, number(sequence)?, 0, 0, 0, 0, 0, 0];
    let places = [2, 3].iter().chain(own_fields(kind));
    for (place, word) in places.zip(rest) {
        fields[*place] = number(word)?;
    }
    let mut room = [0; 64];
    let (answer, size) = subject.write(&fields, &mut room);
    let text: String = room[..size as usize].iter().map(|b| format!("{b:02x}")).collect();
    Some(if answer == DONE { text } else { answer.to_string() })
}

fn read<S: Subject>(subject: &mut S, bytes: &[u8]) -> Option<String> {
    let mut fields = [0; 8];
    let answer = subject.read(bytes, &mut fields);
    if answer != DONE {
        return Some(answer.to_string());
    }
    let kind = fields[0] as usize;
    let mut text = format!("0 {} {} {} {}", fields[1], KINDS[kind - 1], fields[2], fields[3]);
    for place in own_fields(kind) {
        text += &format!(" {}", fields[*place]);
    }
    Some(text)
}
