//! Random calls as lines of the operator's console, so that the product as it is built can be asked them too.

use super::call::Call;
use super::maker::Maker;
use crate::agent_row::AgentRow;
use crate::model::{bytes_of, Model};
use crate::random::Random;
use crate::replay::console::fresh;
use crate::subject::{Start, Subject};

const KINDS: [&str; 6] = ["open", "change", "close", "hold", "lift", "skip"];
/// What a line may have at most.
const IDS: usize = 32;
const ROOM: usize = 16;

/// So many lines from a seed, in sessions that begin with a fresh agent.
pub fn script(seed: u64, lines: usize) -> String {
    let mut random = Random::new(seed);
    let mut model = Model::new();
    let mut text = String::new();
    let mut written = 0;
    while written < lines {
        let mut maker = Maker::new(random.draw());
        let mut call = Call::Fresh { pool: maker.pool() };
        for _ in 0..maker.random.within(20..=400) {
            if let Some(line) = line_of(&call) {
                put(&call, &mut model);
                text += &line;
                text += "\n";
                written += 1;
            }
            call = next_call(&mut maker, &model.agent());
        }
    }
    text
}

/// As the console does it, which keeps no agent where a fresh one is refused.
fn put(call: &Call, model: &mut Model) {
    match call {
        Call::Fresh { pool } => {
            fresh(model, *pool);
        }
        _ => {
            call.put_to(model);
        }
    }
}

fn next_call(maker: &mut Maker, row: &AgentRow) -> Call {
    match maker.random.below(100) {
        0..=12 => maker.open(row),
        13..=30 => maker.change(row),
        31..=35 => maker.close(row),
        36..=44 => maker.doors(row),
        45..=56 => maker.take(row),
        57..=78 => maker.lane(row),
        79..=83 => maker.rom_lane(row),
        84..=88 => maker.status(row),
        89..=92 => maker.planner(row),
        93..=94 => maker.share(),
        95 => maker.plan(),
        96 => maker.rom_plan(),
        97 => maker.skip_plan(),
        98 => maker.write(),
        _ => maker.read(row),
    }
}

fn numbers(numbers: &[u64]) -> String {
    numbers.iter().map(|number| format!(" {number}")).collect()
}

fn wide(numbers: &[u32]) -> Vec<u64> {
    numbers.iter().map(|number| u64::from(*number)).collect()
}

/// The line of a call; none where no line asks it.
fn line_of(call: &Call) -> Option<String> {
    let (word, rest) = match call {
        Call::Fresh { pool } => ("fresh", numbers(&[*pool])),
        Call::Open { id, time, film } => {
            let film = [film.length, film.floor, film.cap, film.count];
            ("open", numbers(&[*id, *time]) + &numbers(&film))
        }
        Call::Skip {
            id,
            time,
            length,
            count,
        } => ("skip", numbers(&[*id, *time, *length, *count])),
        Call::Change { id, time, count } => ("change", numbers(&[*id, *time, *count])),
        Call::Close { id, time } => ("close", numbers(&[*id, *time])),
        Call::Hold { id, time } => ("hold", numbers(&[*id, *time])),
        Call::Lift { id, time } => ("lift", numbers(&[*id, *time])),
        Call::Lane { id, lane, time } => ("lane", numbers(&[*id, *lane, *time])),
        Call::RomLane { id, lane, time } => ("romlane", numbers(&[*id, *lane, *time])),
        Call::Take { bytes } if !bytes.is_empty() => ("notice", format!(" {}", hex(bytes))),
        Call::Read { bytes } if !bytes.is_empty() => ("read", format!(" {}", hex(bytes))),
        _ => return row_line(call),
    };
    Some(format!("{word}{rest}"))
}

fn row_line(call: &Call) -> Option<String> {
    match call {
        Call::Status { time, ids, places } if *places == [ids.len(); 3] && ids.len() <= IDS => {
            Some(format!("status {time}{}", numbers(ids)))
        }
        Call::Planner { time, rates, places } if *places == [places[0]; 3] && places[0] <= ROOM => {
            Some(format!("planner {time} {}{}", places[0], numbers(&wide(rates))))
        }
        Call::Share { pool, rows, .. } if rows.iter().all(|row| row.len() == rows[0].len()) && rows[0].len() <= 17 => {
            let each = (0..rows[0].len()).flat_map(|i| rows.iter().map(move |row| u64::from(row[i])));
            Some(format!("share {pool}{}", numbers(&each.collect::<Vec<_>>())))
        }
        Call::Plan { start, places } if *places <= 4_096 => Some(format!("plan{} {places}", start_of(start))),
        Call::RomPlan { start, places } if *places <= 4_096 => Some(format!("romplan{} {places}", start_of(start))),
        Call::SkipPlan { count, arrival, places } => Some(format!("skipplan {count} {arrival} {places}")),
        Call::Write { fields, .. } if bytes_of(fields).is_some() => {
            let [kind, sequence, id, time, length, floor, cap, count] = *fields;
            let own = match kind {
                1 => numbers(&[length, floor, cap, count]),
                2 => numbers(&[count]),
                6 => numbers(&[length, count]),
                _ => String::new(),
            };
            let kind = KINDS[kind as usize - 1];
            Some(format!("write {sequence} {kind} {id} {time}{own}"))
        }
        _ => None,
    }
}

fn start_of(start: &Start) -> String {
    numbers(&[start.floor, start.cap, start.count, start.arrival])
}

fn hex(bytes: &[u8]) -> String {
    bytes.iter().map(|byte| format!("{byte:02x}")).collect()
}
