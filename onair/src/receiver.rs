//! The receiver that records the air: tuned to every lane of the pool, it writes for each title a line a tick, the cell that was seen whole
//! on each of its lanes, as `air` reads it. What it saw it knows by the place in the film, and by the bytes themselves, which it
//! compares with the film's; it asks no agent what the lanes should have shown.

use crate::grid::Grid;
use crate::library::{Notice, LANES, NOTHING, TICKS_MAX, TITLES};
use crate::play::SLACK;
use crate::system::{self, Clock, Tuner, DATAGRAM_MAX};
use crate::wire::{self, LaneHead, Told, LANE_HEAD};
use crate::words::Words;
use std::fmt::Write;

/// Bytes that wait for the receiver on each lane.
const ROOM: usize = 16 << 20;

/// What has come of a title: of each tick and lane the cell, and how many of its bytes.
struct Record {
    grid: Grid,
    rows: Vec<[(u16, u64); LANES]>,
}

impl Record {
    fn see(&mut self, head: &LaneHead, bytes: u64) {
        let (tick, lane) = (head.tick as usize, usize::from(head.lane));
        if tick >= TICKS_MAX || lane >= LANES {
            return;
        }
        if self.rows.len() <= tick {
            self.rows.resize(tick + 1, [(NOTHING, 0); LANES]);
        }
        let cell = (head.place / self.grid.cell_bytes) as u16;
        let seen = &mut self.rows[tick][lane];
        // two cells in one tick would be a fault of the modulator: the last counts
        *seen = (cell, if seen.0 == cell { seen.1 + bytes } else { bytes });
    }

    /// Lines for the ticks that were over by a time.
    fn text(&self, end: u64) -> String {
        let over = (end.saturating_sub(self.grid.opened) / self.grid.tick).min(TICKS_MAX as u64);
        let mut text = String::new();
        for tick in 0..over as usize {
            let row = self.rows.get(tick).copied().unwrap_or([(NOTHING, 0); LANES]);
            let cells = row.map(|(cell, bytes)| match u64::from(cell) {
                whole if cell != NOTHING && bytes == self.bytes_of(whole) => cell.to_string(),
                _ => "-".to_string(),
            });
            writeln!(text, "{}", cells.join(" ")).expect("a string has room");
        }
        text
    }

    fn bytes_of(&self, cell: u64) -> u64 {
        let bytes = self.grid.bytes(cell);
        bytes.end - bytes.start
    }
}

struct Air {
    film: Vec<u8>,
    records: [Option<Record>; TITLES],
    datagrams: u64,
    /// Datagrams whose bytes are not the film's at their place, or of a title that nobody has opened.
    wrong: u64,
}

impl Air {
    fn hear(&mut self, bytes: &[u8], pool: usize) {
        let Some((_, told)) = wire::told(bytes, pool) else {
            return;
        };
        if let Told::Notices(notices) = &told {
            notices.iter().for_each(|notice| self.open(notice));
        }
    }

    fn open(&mut self, notice: &Notice) {
        let title = notice.title as usize;
        if notice.opens() && title < TITLES && self.records[title].is_none() {
            let grid = Grid::of(notice, self.film.len() as u64);
            self.records[title] = Some(Record { grid, rows: Vec::new() });
        }
    }

    fn see(&mut self, datagram: &[u8]) {
        self.datagrams += 1;
        let head = LaneHead::of(datagram);
        let record = head.and_then(|head| self.records.get_mut(usize::from(head.title))?.as_mut().zip(Some(head)));
        let Some((record, head)) = record else {
            self.wrong += 1;
            return;
        };
        let bytes = &datagram[LANE_HEAD..];
        if self.film.get(head.place as usize..).is_some_and(|film| film.starts_with(bytes)) {
            record.see(&head, bytes.len() as u64);
        } else {
            self.wrong += 1;
        }
    }
}

fn tuned(port: u16) -> Result<Tuner, String> {
    Tuner::on(port, ROOM).map_err(|why| format!("port {port}: {why}"))
}

/// Receives until the run's end, and writes a record for each title to the folder: air-ID.txt.
pub fn run(words: &Words) -> Result<(), String> {
    let (film, folder): (String, String) = (words.get("film")?, words.get("folder")?);
    let (pool, port): (u64, u16) = (words.get("pool")?, words.get("port")?);
    let (clock, end): (Clock, u64) = (Clock { start: words.get("start")? }, words.get("end")?);
    let mut air = Air {
        film: std::fs::read(&film).map_err(|why| format!("{film}: {why}"))?,
        records: [const { None }; TITLES],
        datagrams: 0,
        wrong: 0,
    };
    let tuners = (port..=port + pool as u16).map(tuned).collect::<Result<Vec<Tuner>, String>>()?;
    println!("tuned=1");
    let mut buffer = vec![0; DATAGRAM_MAX];
    while clock.ms() < end + SLACK {
        for (place, _) in system::wait_for(tuners.iter(), 50).iter().enumerate().filter(|(_, ready)| **ready) {
            while let Some(n) = tuners[place].next(&mut buffer) {
                match place {
                    0 => air.hear(&buffer[..n], pool as usize),
                    _ => air.see(&buffer[..n]),
                }
            }
        }
    }
    for (title, record) in air.records.iter().enumerate() {
        if let Some(record) = record {
            let name = format!("{folder}/air-{title}.txt");
            std::fs::write(&name, record.text(end)).map_err(|why| format!("{name}: {why}"))?;
        }
    }
    println!("datagrams={}\nwrong={}", air.datagrams, air.wrong);
    Ok(())
}
