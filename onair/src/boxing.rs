//! A box's process: the clock, the notices' port, and the lanes of the pool that its plan takes from, each only while it does.

use crate::grid::Grid;
use crate::library::{LANES, NOTHING};
use crate::play::Play;
use crate::random::Digest;
use crate::settop::{Refused, SetTop, Wish};
use crate::system::{self, Clock, Tuner, DATAGRAM_MAX};
use crate::wire::LANE_HEAD;
use crate::words::{listed, Words};
use std::collections::BTreeMap;
use std::fs::File;
use std::io::{self, BufWriter, Write};

/// Bytes that wait for the box on a lane.
const ROOM: usize = 4 << 20;
/// How long it waits for a datagram, in ms.
const NAP: u64 = 20;

/// Where the film is played to, and its digest.
struct Screen {
    out: Box<dyn Write>,
    digest: Digest,
    bytes: u64,
    failed: Option<io::Error>,
}

impl Screen {
    /// A file, or standard output for `-`.
    fn on(name: &str) -> Result<Screen, String> {
        let out: Box<dyn Write> = match name {
            "-" => Box::new(io::stdout()),
            _ => Box::new(BufWriter::new(File::create(name).map_err(|why| format!("{name}: {why}"))?)),
        };
        Ok(Screen { out, digest: Digest::new(), bytes: 0, failed: None })
    }

    fn show(&mut self, bytes: &[u8]) {
        self.digest.add(bytes);
        self.bytes += bytes.len() as u64;
        if let Err(why) = self.out.write_all(bytes) {
            self.failed.get_or_insert(why);
        }
    }
}

/// The lanes that it is tuned to.
struct Tuners {
    port: u16,
    notices: Tuner,
    lanes: BTreeMap<usize, Tuner>,
    buffer: Vec<u8>,
}

impl Tuners {
    /// Tunes to the lanes that are wanted, and leaves the others.
    fn tune(&mut self, wanted: &[usize]) -> Result<(), String> {
        self.lanes.retain(|lane, _| wanted.contains(lane));
        for lane in wanted {
            if !self.lanes.contains_key(lane) {
                let port = self.port + 1 + *lane as u16;
                let tuner = Tuner::on(port, ROOM).map_err(|why| format!("port {port}: {why}"))?;
                self.lanes.insert(*lane, tuner);
            }
        }
        Ok(())
    }

    fn hear(&mut self, settop: &mut SetTop, clock: Clock) {
        while let Some(n) = self.notices.next(&mut self.buffer) {
            settop.hear(&self.buffer[..n], clock.ms());
        }
    }

    /// Takes what has come on the lanes; of what is not wanted only the beginning is read.
    fn see(&mut self, settop: &mut SetTop, clock: Clock) {
        for (lane, tuner) in &self.lanes {
            while let Some(n) = tuner.peek(&mut self.buffer[..LANE_HEAD]) {
                match settop.judge(*lane, &self.buffer[..n], clock.ms()) {
                    None => tuner.pass_over(),
                    Some(head) => {
                        let n = tuner.next(&mut self.buffer).unwrap_or(LANE_HEAD);
                        settop.keep(*lane, &head, &self.buffer[LANE_HEAD..n], clock.ms());
                    }
                }
            }
        }
    }

    fn wait(&self) {
        system::wait_for(std::iter::once(&self.notices).chain(self.lanes.values()), NAP);
    }
}

/// A number that the system tells of this process, in a file of /proc: behind a word, or the first.
fn told_by_proc(file: &str, word: &str) -> u64 {
    let text = std::fs::read_to_string(format!("/proc/self/{file}")).unwrap_or_default();
    let rest = text.split_once(word).map_or("", |(_, rest)| rest);
    rest.split_whitespace().next().and_then(|number| number.parse().ok()).unwrap_or(0)
}

/// What the box says of its play.
fn told_of(play: &Play, words: Words) -> Words {
    let Grid { tick, film, .. } = play.grid;
    words
        .with("title", play.title)
        .with("start", play.start)
        .with("admitted", play.grid.time(play.start))
        .with("count", play.count)
        .with("tick", tick)
        .with("film", film)
        .with("turn", play.turn)
        .with("late", listed(&play.late))
        .with("missing", listed(&play.missing))
        .with("stalled", listed(&play.stalled))
        .with("most", play.most)
        .with("foreign", play.foreign)
}

/// What the box says at its end.
fn told(settop: &SetTop, screen: &Screen) -> Words {
    let refused = settop.refused.iter().map(|refused| {
        let mended = refused.mended.map_or("-".into(), |(at, snapshot)| {
            format!("{}:{}", at - refused.at, if snapshot { "snapshot" } else { "carousel" })
        });
        format!("{}:{}:{mended}", refused.sequence, refused.answer)
    });
    let words = Words::default()
        .with("ready", settop.ready.unwrap_or(0))
        .with("passed", settop.passed)
        .with("snapshots", settop.snapshots)
        .with("began", listed(settop.began.map_or(vec![], |(sequence, at)| vec![sequence, at])))
        .with("sequence", settop.sequence())
        .with("refused", listed(refused))
        .with("lost", listed(settop.lost().iter().map(|(sequence, answer)| format!("{sequence}:{answer}"))))
        .with("thrown", settop.lost_on_purpose)
        .with("digest", format!("{:016x}", screen.digest.0))
        .with("bytes", screen.bytes)
        .with("cpu_us", told_by_proc("schedstat", "") / 1_000)
        .with("memory_kb", told_by_proc("status", "VmHWM:"));
    match &settop.play {
        Some(play) => told_of(play, words),
        None => words,
    }
}

/// The same for people, on standard error.
fn say(settop: &SetTop, screen: &Screen) {
    let Some(play) = &settop.play else {
        eprintln!("not admitted");
        return;
    };
    let all = |cells: &[u64]| if cells.is_empty() { "none".into() } else { listed(cells) };
    eprintln!(
        "title {} from {} ms on: {} cells, {} kept at most",
        play.title,
        play.grid.time(play.start),
        play.turn,
        play.most
    );
    eprintln!(
        "cells late: {}; missing: {}; shown too late: {}",
        all(&play.late),
        all(&play.missing),
        all(&play.stalled)
    );
    for Refused { sequence, answer, at, mended } in &settop.refused {
        let did = mended.map_or("waits for what is missing".into(), |(when, snapshot)| {
            format!("taken {} ms later, by {}", when - at, if snapshot { "a snapshot" } else { "the carousel" })
        });
        eprintln!("notice {sequence} refused at {at} ms with {answer}: {did}");
    }
    for (sequence, answer) in settop.lost() {
        eprintln!("notice {sequence} refused with {answer}, and forgotten");
    }
    eprintln!("digest {:016x}", screen.digest.0);
}

/// The record of what it received, as `air` reads it.
fn write_record(play: &Play, name: &str) -> Result<(), String> {
    let line =
        |row: &[u16; LANES]| row.map(|cell| if cell == NOTHING { "-".into() } else { cell.to_string() }).join(" ");
    let text: String = play.record.iter().map(|row| line(row) + "\n").collect();
    std::fs::write(name, text).map_err(|why| format!("{name}: {why}"))
}

fn wish_of(words: &Words) -> Result<Wish, String> {
    Ok(Wish {
        pool: words.get("pool")?,
        ask: words.get("ask")?,
        titles: words.list("titles")?,
        size: words.get("size")?,
        loss: words.get("loss")?,
        seed: words.get("seed")?,
        old: words.get("old")?,
    })
}

/// Plays until the film's end or the run's, and says how it went.
pub fn run(words: &Words) -> Result<(), String> {
    let (clock, end, port): (Clock, u64, u16) =
        (Clock { start: words.get("start")? }, words.get("end")?, words.get("port")?);
    let mut settop = SetTop::new(wish_of(words)?).map_err(|refusal| format!("the pool: {refusal}"))?;
    let mut screen = Screen::on(&words.get::<String>("out")?)?;
    let notices = Tuner::on(port, ROOM).map_err(|why| format!("port {port}: {why}"))?;
    let mut tuners = Tuners { port, notices, lanes: BTreeMap::new(), buffer: vec![0; DATAGRAM_MAX] };
    while !settop.is_over() && clock.ms() < end {
        tuners.hear(&mut settop, clock);
        settop.settle(clock.ms());
        tuners.tune(&settop.ports())?;
        tuners.see(&mut settop, clock);
        while let Some(bytes) = settop.show(clock.ms()) {
            screen.show(&bytes);
        }
        tuners.wait();
    }
    screen.out.flush().map_err(|why| format!("the film is not played: {why}"))?;
    if let Some(why) = screen.failed.take() {
        return Err(format!("the film is not played: {why}"));
    }
    if let (Some(play), Ok(record)) = (&settop.play, words.get::<String>("record")) {
        write_record(play, &record)?;
    }
    say(&settop, &screen);
    let report: String = words.get("report")?;
    let text: String = told(&settop, &screen).lines().map(|line| line + "\n").collect();
    std::fs::write(&report, text).map_err(|why| format!("{report}: {why}"))
}
