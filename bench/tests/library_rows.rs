//! The library's rows: an agent of another length, or a row of results that is too short, is 10 before all else, and then
//! nothing that was lent has changed.

#![cfg(feature = "library")]

use bench::agent_row::{fresh, ROW, SNAPSHOT};
use bench::library::raw::*;
use bench::library::Library;
use bench::limits::{NOTHING, ROM_CAP, ROM_FLOOR, ROM_NUMBERS};
use bench::model::bytes_of_row;
use bench::refusals::{DONE, NOT_AT_SLOT, WRONG_ROWS};
use bench::subject::{Film, Subject};

/// A number that is out of every limit: the refusal of the row comes before its own.
const WILD: u64 = u64::MAX;
/// Rows are lent with so many places more than a call is told of.
const SPARE: usize = 16;

/// Everything that a call may be lent.
#[derive(Clone, PartialEq)]
struct Lent {
    agent: Vec<u64>,
    numbers: Vec<u64>,
    more: Vec<u64>,
    places: Vec<u16>,
    table: Vec<u16>,
    bytes: Vec<u8>,
}

impl Lent {
    fn new() -> Lent {
        let mut agent = fresh(8).to_vec();
        agent.resize(ROW + SPARE, 0);
        Lent {
            agent,
            numbers: vec![7; SPARE],
            more: vec![8; SPARE],
            places: vec![9; SPARE],
            table: vec![6; ROM_NUMBERS + SPARE],
            bytes: vec![5; SNAPSHOT],
        }
    }
}

/// Whether a call answers 10 and leaves all as it was.
fn is_refused(what: &str, call: impl FnOnce(&mut Lent) -> u8) {
    let mut lent = Lent::new();
    let answer = call(&mut lent);
    assert_eq!(answer, WRONG_ROWS, "{what}");
    assert!(lent == Lent::new(), "{what} has changed what it was lent");
}

const LENGTHS: [usize; 4] = [0, ROW - 1, ROW + 1, ROW + SPARE];

#[test]
fn events_want_an_agent_of_its_length() {
    for n in LENGTHS {
        // SAFETY: here and below every length is at most that of the row it goes with
        is_refused("fresh", |l| unsafe { rl_fresh_row(l.agent.as_mut_ptr(), n, WILD) });
        is_refused("open", |l| unsafe {
            rl_open_row(l.agent.as_mut_ptr(), n, WILD, WILD, WILD, WILD, WILD, WILD)
        });
        is_refused("skip", |l| unsafe {
            rl_skip_row(l.agent.as_mut_ptr(), n, WILD, WILD, WILD, WILD)
        });
        is_refused("change", |l| unsafe {
            rl_change_row(l.agent.as_mut_ptr(), n, WILD, WILD, WILD)
        });
        is_refused("close", |l| unsafe {
            rl_close_row(l.agent.as_mut_ptr(), n, WILD, WILD)
        });
        is_refused("hold", |l| unsafe { rl_hold_row(l.agent.as_mut_ptr(), n, WILD, WILD) });
        is_refused("lift", |l| unsafe { rl_lift_row(l.agent.as_mut_ptr(), n, WILD, WILD) });
        is_refused("take", |l| unsafe {
            rl_take_row(l.agent.as_mut_ptr(), n, l.bytes.as_ptr(), 26)
        });
    }
}

/// The lane questions and lanes held, with so many numbers of an agent and places for the answer.
fn questions_refuse(n: usize, places: usize) {
    is_refused("lane", |l| unsafe {
        rl_lane_row(l.agent.as_ptr(), n, WILD, WILD, WILD, l.numbers.as_mut_ptr(), places)
    });
    is_refused("rom_lane", |l| unsafe {
        let (table, cell) = (l.table.as_ptr(), l.numbers.as_mut_ptr());
        rl_rom_lane_row(l.agent.as_ptr(), n, table, ROM_NUMBERS, WILD, WILD, WILD, cell, places)
    });
    is_refused("held", |l| unsafe {
        rl_held_row(l.agent.as_ptr(), n, WILD, l.numbers.as_mut_ptr(), places)
    });
    is_refused("planner", |l| unsafe {
        let (agent, rates) = (l.agent.as_ptr(), [0; 16]);
        let rows = l.more.as_mut_ptr();
        let (ids, times, counts) = (rows, rows.add(4), rows.add(8));
        let moves = l.numbers.as_mut_ptr();
        rl_planner_row(
            agent,
            n,
            WILD,
            rates.as_ptr(),
            16,
            ids,
            4,
            times,
            4,
            counts,
            4,
            moves,
            places,
        )
    });
}

#[test]
fn questions_want_an_agent_of_its_length_and_a_place() {
    for n in LENGTHS {
        questions_refuse(n, 1);
    }
    questions_refuse(ROW, 0);
}

#[test]
fn the_small_box_wants_a_table_of_its_length() {
    for n in [0, ROM_NUMBERS - 1, ROM_NUMBERS + 1, ROM_NUMBERS + SPARE] {
        is_refused("rom_fill", |l| unsafe { rl_rom_fill_row(l.table.as_mut_ptr(), n) });
        is_refused("rom_lane", |l| unsafe {
            let (table, cell) = (l.table.as_ptr(), l.numbers.as_mut_ptr());
            rl_rom_lane_row(l.agent.as_ptr(), ROW, table, n, WILD, WILD, WILD, cell, 1)
        });
        // the plan has its 10 behind the others
        let mut row = vec![9; 1 << ROM_CAP];
        let mut plan = |arrival| unsafe {
            let table = Lent::new().table;
            let (floor, cap, count) = (ROM_FLOOR, ROM_CAP, ROM_FLOOR);
            rl_rom_plan_row(
                table.as_ptr(),
                n,
                floor,
                cap,
                count,
                arrival,
                row.as_mut_ptr(),
                row.len(),
            )
        };
        assert_eq!([plan(1), plan(0)], [NOT_AT_SLOT, WRONG_ROWS]);
        assert!(row.iter().all(|place| *place == 9), "a refused plan has written");
    }
}

/// Any numbers may be lent as a table: a lane shows the one that stands at its place, and a plan has the first tick at which
/// a cell's number stands on a lane, whatever else stands there.
#[test]
fn the_small_box_reads_the_table_that_it_is_lent() {
    let mut library = Library::new();
    let (length, floor, cap, count) = (896_000, ROM_FLOOR, ROM_CAP, ROM_CAP);
    assert_eq!(library.fresh(64), DONE);
    assert_eq!(
        library.open(
            0,
            0,
            Film {
                length,
                floor,
                cap,
                count
            }
        ),
        DONE
    );
    let agent = library.agent();
    let table: Vec<u16> = (0..ROM_NUMBERS as u16).map(|place| place * 11).collect();
    for (lane, tick) in [(0, 0), (3, 511), (9, 512), (9, 700)] {
        let mut cell = [0];
        // a tick of this film is 1,000 ms
        let time = tick * 1_000;
        let answer = unsafe {
            rl_rom_lane_row(
                agent.as_ptr(),
                ROW,
                table.as_ptr(),
                ROM_NUMBERS,
                0,
                lane,
                time,
                cell.as_mut_ptr(),
                1,
            )
        };
        assert_eq!(
            (answer, cell[0]),
            (DONE, u64::from(table[(lane * 512 + tick % 512) as usize]))
        );
    }
    let mut row = vec![9; (1 << ROM_CAP) + 1];
    let answer = unsafe {
        rl_rom_plan_row(
            table.as_ptr(),
            ROM_NUMBERS,
            floor,
            cap,
            count,
            0,
            row.as_mut_ptr(),
            row.len(),
        )
    };
    assert_eq!(answer, DONE);
    for cell in 0..1 << ROM_CAP {
        let first = (0..512).find(|tick| (0..10).any(|lane| table[lane * 512 + tick] == cell as u16));
        assert_eq!(row[cell], first.map_or(NOTHING, |tick| tick as u16), "cell {cell}");
    }
    assert_eq!(row[1 << ROM_CAP], 9);
}

#[test]
fn status_wants_an_agent_of_its_length() {
    for n in LENGTHS {
        is_refused("status", |l| unsafe {
            let rows = l.more.as_mut_ptr();
            let (counts, held, marks) = (rows, rows.add(4), rows.add(8));
            let ids = l.numbers.as_ptr();
            rl_status_row(l.agent.as_ptr(), n, WILD, ids, 4, counts, 4, held, 4, marks, 4)
        });
    }
}

#[test]
fn notices_want_eight_fields() {
    for (fields, written) in [(0, 1), (7, 1), (9, 1), (8, 0)] {
        is_refused("write", |l| unsafe {
            let room = l.bytes.as_mut_ptr();
            rl_write_row(l.numbers.as_ptr(), fields, room, 45, l.more.as_mut_ptr(), written)
        });
    }
    for fields in [0, 7] {
        is_refused("read", |l| unsafe {
            rl_read_row(l.bytes.as_ptr(), 26, l.numbers.as_mut_ptr(), fields)
        });
    }
    for (place, fields) in [(0, 8), (1, 7), (1, 0)] {
        is_refused("next", |l| unsafe {
            let places = l.more.as_mut_ptr();
            rl_next_row(l.bytes.as_ptr(), 26, places, place, l.numbers.as_mut_ptr(), fields)
        });
    }
}

#[test]
fn reports_want_their_places() {
    for places in 0..4 {
        is_refused("waits", |l| unsafe {
            let report = l.more.as_mut_ptr();
            rl_waits_row(WILD, WILD, l.bytes.as_ptr(), 9, l.numbers.as_ptr(), 9, report, places)
        });
    }
    for places in 0..3 {
        is_refused("air", |l| unsafe {
            let (log, record, report) = (l.bytes.as_ptr(), [3; 12], l.more.as_mut_ptr());
            let row = l.places.as_mut_ptr();
            rl_air_row(WILD, WILD, log, 9, record.as_ptr(), 12, row, 1, report, places)
        });
        is_refused("salvage", |l| unsafe {
            let log = [1; 40];
            let (area, stretches) = (l.bytes.as_mut_ptr(), l.numbers.as_mut_ptr());
            rl_salvage_row(log.as_ptr(), 40, area, 40, stretches, 16, l.more.as_mut_ptr(), places)
        });
    }
}

#[test]
fn snapshots_want_an_agent_of_its_length_and_their_room() {
    for n in LENGTHS {
        is_refused("save", |l| unsafe {
            rl_save_row(l.agent.as_ptr(), n, l.bytes.as_mut_ptr(), SNAPSHOT)
        });
        is_refused("load", |l| unsafe {
            let bytes = bytes_of_row(&fresh(9));
            rl_load_row(l.agent.as_mut_ptr(), n, bytes.as_ptr(), bytes.len())
        });
    }
    is_refused("save", |l| unsafe {
        rl_save_row(l.agent.as_ptr(), ROW, l.bytes.as_mut_ptr(), SNAPSHOT - 1)
    });
}
