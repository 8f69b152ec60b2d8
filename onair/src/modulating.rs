//! The modulator's process: the journal as it grows, the clock, and the air. The runner says on standard input up to which sequence the
//! head-end has answered (`upto N`), and which notice the next one is to overtake (`swap N`).

use crate::library::Notice;
use crate::modulator::{Modulator, Part, CAROUSEL, SNAPSHOT};
use crate::system::{self, Clock};
use crate::words::Words;
use std::cmp::Reverse;
use std::collections::BinaryHeap;
use std::fs::File;
use std::io::{self, BufRead, Read, Seek, SeekFrom};
use std::net::UdpSocket;
use std::sync::mpsc::{self, Receiver};

/// The longest time, in microseconds, that it sleeps.
const NAP: u64 = 2_000;

/// The head-end's journal, read as it grows.
struct Journal {
    name: String,
    place: u64,
}

impl Journal {
    /// The notices behind those that were read, up to a sequence; later bytes may still be cut off, and are read again.
    fn next(&mut self, upto: u64) -> io::Result<Vec<Notice>> {
        let mut file = File::open(&self.name)?;
        file.seek(SeekFrom::Start(self.place))?;
        let mut bytes = Vec::new();
        file.read_to_end(&mut bytes)?;
        let mut notices = Notice::all(&bytes);
        notices.retain(|notice| notice.sequence <= upto);
        self.place += notices.iter().map(|notice| notice.bytes.len() as u64).sum::<u64>();
        Ok(notices)
    }
}

/// How much was sent, and how late, in microseconds.
#[derive(Default)]
struct Sent {
    datagrams: u64,
    bytes: u64,
    lateness: Vec<u64>,
    notices: u64,
    notice_bytes: u64,
    carousel_bytes: u64,
    snapshot_bytes: u64,
}

impl Sent {
    fn told(&mut self, least_lead: u64) -> Words {
        self.lateness.sort_unstable();
        let n = self.lateness.len();
        let at = |share: usize| self.lateness.get(n * share / 1_000).or(self.lateness.last()).copied().unwrap_or(0);
        Words::default()
            .with("datagrams", self.datagrams)
            .with("bytes", self.bytes)
            .with("late_half", at(500))
            .with("late_most", at(999))
            .with("late_worst", at(1_000))
            .with("notices", self.notices)
            .with("notice_bytes", self.notice_bytes)
            .with("carousel_bytes", self.carousel_bytes)
            .with("snapshot_bytes", self.snapshot_bytes)
            .with("least_lead", least_lead)
    }
}

/// Everything that the process works with.
struct Work {
    modulator: Modulator,
    journal: Journal,
    film: Vec<u8>,
    socket: UdpSocket,
    /// The notices' port; the lanes of the pool have those behind it.
    port: u16,
    parts: BinaryHeap<Reverse<(u64, u64)>>,
    waiting: Vec<Option<Part>>,
    datagram: Vec<u8>,
    sent: Sent,
    carousel_due: u64,
    snapshot_due: u64,
}

fn commands() -> Receiver<String> {
    let (sender, receiver) = mpsc::channel();
    std::thread::spawn(move || {
        for line in io::stdin().lock().lines().map_while(Result::ok) {
            if sender.send(line).is_err() {
                return;
            }
        }
    });
    receiver
}

impl Work {
    fn send_told(&mut self, datagram: &[u8]) -> Result<(), String> {
        system::send(&self.socket, self.port, datagram).map_err(|why| format!("a notice is not sent: {why}"))
    }

    fn command(&mut self, line: &str, clock: u64) -> Result<(), String> {
        let (word, number) = line.split_once(' ').ok_or("a command has two words")?;
        let sequence = number.parse().map_err(|_| format!("{line}: no sequence"))?;
        match word {
            "swap" => self.modulator.withhold(sequence),
            "upto" => {
                let notices = self.journal.next(sequence).map_err(|why| format!("{}: {why}", self.journal.name))?;
                self.sent.notices += notices.len() as u64;
                for datagram in self.modulator.tell(&notices, clock)? {
                    self.sent.notice_bytes += datagram.len() as u64;
                    self.send_told(&datagram)?;
                }
            }
            _ => return Err(format!("{line}: unknown command")),
        }
        Ok(())
    }

    /// The latest notices again, and the snapshot, where their time has come.
    fn repeat(&mut self, clock: u64) -> Result<(), String> {
        if clock >= self.carousel_due {
            self.carousel_due = clock + CAROUSEL;
            let datagram = self.modulator.carousel(clock);
            self.sent.carousel_bytes += datagram.len() as u64;
            self.send_told(&datagram)?;
        }
        if clock >= self.snapshot_due {
            self.snapshot_due = clock + SNAPSHOT;
            let datagram = self.modulator.snapshot(clock).map_err(|refusal| format!("a snapshot: {refusal}"))?;
            self.sent.snapshot_bytes += datagram.len() as u64;
            self.send_told(&datagram)?;
        }
        Ok(())
    }

    /// What begins by now is put in order of its time.
    fn begin(&mut self, clock: u64) {
        while let Some(moment) = self.modulator.next_moment().filter(|moment| *moment <= clock) {
            for part in self.modulator.at(moment) {
                self.parts.push(Reverse((part.due, self.waiting.len() as u64)));
                self.waiting.push(Some(part));
            }
        }
    }

    fn send_due(&mut self, clock: Clock) -> Result<(), String> {
        while let Some(Reverse((due, place))) = self.parts.peek().copied() {
            let now = clock.micros();
            if due > now {
                break;
            }
            self.parts.pop();
            let Some(part) = self.waiting[place as usize].take() else {
                continue;
            };
            part.head.put(&mut self.datagram);
            self.datagram.extend(&self.film[part.bytes.start as usize..part.bytes.end as usize]);
            system::send(&self.socket, self.port + 1 + part.port as u16, &self.datagram)
                .map_err(|why| format!("lane {} is not sent: {why}", part.port))?;
            self.sent.datagrams += 1;
            self.sent.bytes += self.datagram.len() as u64;
            self.sent.lateness.push(now - due);
        }
        Ok(())
    }

    fn until(&mut self, end: u64, clock: Clock, commands: &Receiver<String>) -> Result<(), String> {
        while clock.ms() < end {
            while let Ok(line) = commands.try_recv() {
                self.command(&line, clock.ms())?;
            }
            self.repeat(clock.ms())?;
            self.begin(clock.ms());
            self.send_due(clock)?;
            let next = self.parts.peek().map_or(u64::MAX, |Reverse((due, _))| *due);
            let moment = self.modulator.next_moment().map_or(u64::MAX, |moment| moment * 1_000);
            clock.sleep_until(next.min(moment).min(clock.micros() + NAP));
        }
        Ok(())
    }
}

/// Modulates until the run's end, and says how late it was.
pub fn run(words: &Words) -> Result<(), String> {
    let film: String = words.get("film")?;
    let film = std::fs::read(&film).map_err(|why| format!("{film}: {why}"))?;
    let pool = words.get("pool")?;
    let mut work = Work {
        modulator: Modulator::new(pool, film.len() as u64).map_err(|refusal| format!("a pool of {pool}: {refusal}"))?,
        journal: Journal { name: words.get("journal")?, place: 0 },
        film,
        socket: system::sender().map_err(|why| format!("no socket: {why}"))?,
        port: words.get("port")?,
        parts: BinaryHeap::new(),
        waiting: Vec::new(),
        datagram: Vec::with_capacity(system::DATAGRAM_MAX),
        sent: Sent::default(),
        carousel_due: 0,
        snapshot_due: SNAPSHOT,
    };
    work.until(words.get("end")?, Clock { start: words.get("start")? }, &commands())?;
    let told = work.sent.told(work.modulator.least_lead);
    told.lines().for_each(|line| println!("{line}"));
    Ok(())
}
