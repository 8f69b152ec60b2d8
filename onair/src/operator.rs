//! The operator: enters lines at the head-end by a seed, each event ENTER ms before its time, and tells the modulator what was answered.

use crate::follower::LEAD;
use crate::headend::HeadEnd;
use crate::library::{Notice, TITLES};
use crate::random::Random;
use crate::scale::{Scale, MAIN, OPENED, SKIP};
use crate::system::Clock;
use std::collections::VecDeque;
use std::io::Write;
use std::process::ChildStdin;

/// How long before its time, in ms, an event is entered: longer than LEAD by what a busy disk may hold up the head-end's answer.
const ENTER: u64 = 2_500;
/// How long a postponed deed waits, in ms.
const LATER: u64 = 400;
/// An event whose time is further off than this, in ms, is not waited for.
const TOO_FAR: u64 = 4_000;
/// How many ticks a lane that was raised for one slot of the floor may send behind its drop.
const OWED: u64 = 32;
/// How long behind a drop that overtook, in ms, no further change of the main title comes.
const WINDOW: u64 = 2_000;
/// How many rates are tried in one second.
const TRIES: usize = 8;
/// How often a title is asked for, as the planner takes it.
const RATES: [u64; 4] = [1, 10, 100, 1_000];

/// What the operator does, in the order of a run's time.
#[derive(Clone, Copy, Debug, PartialEq, Eq)]
pub enum Deed {
    /// New rates: the planner's changes are entered at their times.
    Rates,
    Hold(u64),
    Lift(u64),
    /// A title opens, once there is room for it.
    Open(u64),
    Close(u64),
    /// The head-end is killed while it is asked to hold a title's doors, and started again on its journal.
    Kill,
    /// A lane of the main title is raised and dropped; the drop's notice overtakes the raise's.
    Flutter,
    /// The lane that was dropped goes to another film.
    Pass,
}

/// An event that waits for its time.
struct Line {
    time: u64,
    text: String,
    /// Behind a raise of the main title: the count that it is dropped to, by a notice that overtakes.
    back_to: Option<u64>,
}

pub struct Operator {
    headend: HeadEnd,
    journal: String,
    modulator: ChildStdin,
    clock: Clock,
    scale: Scale,
    random: Random,
    /// The time of the last accepted event, and its sequence.
    last: u64,
    pub sequence: u64,
    lines: VecDeque<Line>,
    /// Until when no change of the main title is entered, until when nothing at all, and until when lanes are left free for an opening.
    window_until: u64,
    quiet_until: u64,
    room_until: u64,
    padded: Vec<u64>,
    agenda: Vec<(u64, Deed)>,
    pub transcript: Vec<String>,
    pub refusals: u64,
    /// Raises that were overtaken, and when.
    pub swaps: Vec<(u64, u64)>,
    pub kills: u64,
}

/// The numbers of an answer that begins with 0.
fn numbers(answer: &str) -> Option<Vec<u64>> {
    let all: Option<Vec<u64>> = answer.split_whitespace().map(|word| word.parse().ok()).collect();
    let all = all?;
    (all.first() == Some(&0)).then(|| all[1..].to_vec())
}

/// The time behind words such as `room from`.
fn time_behind(answer: &str, words: &str) -> Option<u64> {
    let rest = answer.split_once(words)?.1;
    rest.trim_start().split(|sign: char| !sign.is_ascii_digit()).next()?.parse().ok()
}

/// A run's deeds: rates every second, and the others at their shares of it.
fn agenda(scale: &Scale, swaps: bool) -> Vec<(u64, Deed)> {
    let at = |percent: u64| scale.end() * percent / 100;
    let mut deeds: Vec<(u64, Deed)> = (2..scale.seconds).map(|second| (second * 1_000, Deed::Rates)).collect();
    deeds.extend([
        (at(20), Deed::Hold(1)),
        (at(25), Deed::Open(SKIP)),
        (at(38), Deed::Close(1)),
        (at(40), Deed::Open(3)),
        (at(48), Deed::Kill),
        (at(60), Deed::Hold(3)),
        (at(68), Deed::Close(SKIP)),
        (at(70), Deed::Open(4)),
    ]);
    if swaps {
        deeds.extend([10, 36, 58].map(|percent| (at(percent), Deed::Flutter)));
    }
    deeds.sort_by_key(|(time, _)| *time);
    deeds
}

pub struct Desk {
    pub headend: HeadEnd,
    pub journal: String,
    pub modulator: ChildStdin,
}

impl Operator {
    pub fn new(desk: Desk, clock: Clock, scale: Scale, seed: u64, swaps: bool) -> Operator {
        Operator {
            headend: desk.headend,
            journal: desk.journal,
            modulator: desk.modulator,
            clock,
            scale,
            random: Random::new(seed ^ 0x6f70_6572),
            last: 0,
            sequence: 0,
            lines: VecDeque::new(),
            window_until: 0,
            quiet_until: 0,
            room_until: 0,
            padded: Vec::new(),
            agenda: agenda(&scale, swaps),
            transcript: Vec::new(),
            refusals: 0,
            swaps: Vec::new(),
            kills: 0,
        }
    }

    // --- lines ---

    fn ask(&mut self, line: &str) -> Result<String, String> {
        let answer = self.headend.ask(line)?;
        self.transcript.push(format!("{:>6} > {line}\n         {answer}", self.clock.ms()));
        Ok(answer)
    }

    /// From when on an event may still be told early enough.
    fn from(&self) -> u64 {
        self.last.max(self.clock.ms() + ENTER)
    }

    /// Enters an event. Whether it was accepted; the modulator is told by `tell`.
    fn enter(&mut self, line: &str, time: u64) -> Result<bool, String> {
        if time < self.clock.ms() + LEAD + 300 {
            self.transcript.push(format!("{:>6} # too late to tell: {line}", self.clock.ms()));
            return Ok(false);
        }
        let answer = self.ask(line)?;
        let Some([_, sequence]) = numbers(&answer).as_deref().and_then(|found| <[u64; 2]>::try_from(found).ok()) else {
            self.refusals += 1;
            return Ok(false);
        };
        (self.last, self.sequence) = (time, sequence);
        Ok(true)
    }

    fn command(&mut self, command: &str) -> Result<(), String> {
        writeln!(self.modulator, "{command}").map_err(|why| format!("the modulator takes no command: {why}"))
    }

    fn tell(&mut self) -> Result<(), String> {
        let sequence = self.sequence;
        self.command(&format!("upto {sequence}"))
    }

    fn enter_and_tell(&mut self, line: &str, time: u64) -> Result<bool, String> {
        let accepted = self.enter(line, time)?;
        if accepted {
            self.tell()?;
        }
        Ok(accepted)
    }

    /// The earliest time from a time on at which an event of a title is accepted, if that is near.
    fn when(&mut self, title: u64, from: u64, what: &str) -> Result<Option<u64>, String> {
        let answer = self.ask(&format!("when {title} {from} {what}"))?;
        Ok(numbers(&answer).and_then(|found| found.first().copied()).filter(|time| *time < from + TOO_FAR))
    }

    /// Each title's count, by the head-end's own answer; 0 where it is not open.
    fn count(&mut self, title: u64) -> Result<u64, String> {
        let answer = self.ask(&format!("status {} {title}", self.last))?;
        Ok(numbers(&answer).and_then(|found| found.get(1).copied()).unwrap_or(0))
    }

    // --- deeds ---

    fn later(&mut self, deed: Deed, ms: u64) {
        self.agenda.push((self.clock.ms() + ms, deed));
    }

    /// New rates by the seed, such that the planner makes something of them; the changes of the last rates come first.
    fn rates(&mut self) -> Result<(), String> {
        for _ in 0..TRIES {
            if !self.lines.is_empty() {
                break;
            }
            let rates: Vec<String> = (0..TITLES).map(|_| RATES[self.random.below(4) as usize].to_string()).collect();
            let answer = self.ask(&format!("planner {} 16 {}", self.from(), rates.join(" ")))?;
            let list = numbers(&answer).unwrap_or_default();
            self.lines = list.chunks_exact(3).map(|change| planned(change[0], change[1], change[2])).collect();
        }
        Ok(())
    }

    fn doors(&mut self, title: u64, word: &str) -> Result<(), String> {
        let from = self.from();
        if let Some(time) = self.when(title, from, word)? {
            self.lines.clear();
            let accepted = self.enter_and_tell(&format!("{word} {title} {time}"), time)?;
            if accepted && word == "hold" {
                self.later(Deed::Lift(title), 1_000);
            }
        }
        Ok(())
    }

    /// Opens a title where there is room, or makes room and waits for it.
    fn open(&mut self, title: u64) -> Result<(), String> {
        let from = self.from();
        let line = self.scale.opening(title, from);
        self.lines.clear();
        let answer = self.ask(&line)?;
        if let Some(found) = numbers(&answer) {
            (self.last, self.sequence) = (from, found[1]);
            self.opened(title);
            return self.tell();
        }
        match time_behind(&answer, "room from") {
            Some(room) if room < from + TOO_FAR => {
                let wait = room.saturating_sub(self.clock.ms() + ENTER);
                self.room_until = self.clock.ms() + wait + LATER;
                self.later(Deed::Open(title), wait);
            }
            _ => {
                self.make_room()?;
                self.room_until = self.clock.ms() + 2 * LATER;
                self.later(Deed::Open(title), LATER);
            }
        }
        Ok(())
    }

    fn opened(&mut self, title: u64) {
        if title != SKIP {
            self.padded.push(title);
        }
    }

    /// The title with the most lanes above its floor is dropped to it.
    fn make_room(&mut self) -> Result<(), String> {
        let mut most = (0, MAIN, 0);
        for title in self.padded.clone() {
            let floor = self.scale.limits(title).0;
            let count = self.count(title)?;
            if count > floor && count - floor > most.0 {
                most = (count - floor, title, floor);
            }
        }
        let (_, title, floor) = most;
        self.change(title, floor)
    }

    /// A change at the earliest time, if that is near.
    fn change(&mut self, title: u64, count: u64) -> Result<(), String> {
        let from = self.from();
        self.change_from(from, title, count)
    }

    fn change_from(&mut self, from: u64, title: u64, count: u64) -> Result<(), String> {
        if let Some(time) = self.when(title, from, &count.to_string())? {
            self.enter_and_tell(&format!("change {title} {time} {count}"), time)?;
        }
        Ok(())
    }

    fn close(&mut self, title: u64) -> Result<(), String> {
        let from = self.from();
        self.lines.clear();
        match self.when(title, from, "close")? {
            Some(time) if self.enter_and_tell(&format!("close {title} {time}"), time)? => {
                self.padded.retain(|open| *open != title);
            }
            _ => self.later(Deed::Close(title), LATER),
        }
        Ok(())
    }

    /// The head-end dies with a line on its way; what its journal has is what was accepted.
    fn kill(&mut self) -> Result<(), String> {
        let (from, title) = (self.from(), self.padded.last().copied().unwrap_or(MAIN));
        let Some(time) = self.when(title, from, "hold")? else {
            self.later(Deed::Kill, LATER);
            return Ok(());
        };
        self.lines.clear();
        let line = format!("hold {title} {time}");
        self.headend.enter(&line)?;
        self.headend.kill_and_start()?;
        self.kills += 1;
        self.transcript.push(format!("{:>6} > {line}\n         # killed, and started again", self.clock.ms()));
        // its first answer comes behind the journal's replay
        self.ask(&format!("status {} {title}", self.last))?;
        let journal = std::fs::read(&self.journal).map_err(|why| format!("{}: {why}", self.journal))?;
        let sequence = Notice::all(&journal).last().map_or(0, |notice| notice.sequence);
        if sequence > self.sequence {
            (self.sequence, self.last) = (sequence, time);
            self.tell()?;
        } else {
            self.enter_and_tell(&line, time)?;
        }
        self.later(Deed::Lift(title), 1_000);
        Ok(())
    }

    /// Prepares a raise of the main title by one lane; another title gives it up where none is free.
    fn flutter(&mut self) -> Result<(), String> {
        self.lines.clear();
        let (count, (floor, cap)) = (self.count(MAIN)?, self.scale.limits(MAIN));
        if count >= cap {
            self.change(MAIN, floor + 1)?;
            self.later(Deed::Flutter, LATER);
            return Ok(());
        }
        let from = self.from();
        let Some(time) = self.when(MAIN, from, &(count + 1).to_string())? else {
            self.give_up_one()?;
            self.later(Deed::Flutter, LATER);
            return Ok(());
        };
        let text = format!("change {MAIN} {time} {}", count + 1);
        self.lines.push_back(Line { time, text, back_to: Some(count) });
        Ok(())
    }

    /// Another padded title than the main one has a lane less, if it can.
    fn give_up_one(&mut self) -> Result<(), String> {
        for title in self.padded.clone().into_iter().filter(|title| *title != MAIN) {
            let count = self.count(title)?;
            if count > self.scale.limits(title).0 {
                return self.change(title, count - 1);
            }
        }
        Ok(())
    }

    /// The raise was accepted and is not yet told: the drop is entered behind it, and overtakes it.
    fn overtake(&mut self, raised: u64, back_to: u64) -> Result<(), String> {
        let raise = self.sequence;
        let time = self.when(MAIN, raised, &back_to.to_string())?.unwrap_or(raised);
        if self.enter(&format!("change {MAIN} {time} {back_to}"), time)? {
            self.swaps.push((raise, self.clock.ms()));
            self.command(&format!("swap {raise}"))?;
        }
        self.tell()?;
        (self.window_until, self.quiet_until) = (self.last + WINDOW - ENTER, self.clock.ms() + LATER);
        self.later(Deed::Pass, LATER);
        Ok(())
    }

    /// Another title gets a lane more, once the dropped one has sent what it owes.
    fn pass(&mut self) -> Result<(), String> {
        let from = self.from().max(self.last + OWED * self.scale.tick);
        for title in self.padded.clone().into_iter().filter(|title| *title != MAIN) {
            let count = self.count(title)?;
            if count > 0 && count < self.scale.limits(title).1 {
                return self.change_from(from, title, count + 1);
            }
        }
        Ok(())
    }

    /// What may be done now; the rest waits, and rates are left out.
    fn does(&mut self, deed: Deed) -> Result<(), String> {
        let clock = self.clock.ms();
        let raising = self.lines.iter().any(|line| line.back_to.is_some());
        let waits = match deed {
            Deed::Rates | Deed::Flutter => raising || clock < self.window_until || clock < self.room_until,
            Deed::Open(_) | Deed::Close(_) => raising || clock < self.window_until,
            Deed::Hold(_) | Deed::Lift(_) | Deed::Kill | Deed::Pass => raising,
        };
        match deed {
            Deed::Rates if waits => {}
            _ if waits => self.later(deed, LATER),
            Deed::Rates => self.rates()?,
            Deed::Hold(title) => self.doors(title, "hold")?,
            Deed::Lift(title) => self.doors(title, "lift")?,
            Deed::Open(title) => self.open(title)?,
            Deed::Close(title) => self.close(title)?,
            Deed::Kill => self.kill()?,
            Deed::Flutter => self.flutter()?,
            Deed::Pass => self.pass()?,
        }
        Ok(())
    }

    // --- the run ---

    /// The titles that are there from the first: entered before the clock runs.
    pub fn begin(&mut self) -> Result<(), String> {
        for title in [MAIN, 1] {
            let line = self.scale.opening(title, OPENED);
            if !self.enter_and_tell(&line, OPENED)? {
                return Err(format!("the head-end refuses: {line}"));
            }
            self.opened(title);
        }
        Ok(())
    }

    /// Does what is to be done by now.
    pub fn work(&mut self) -> Result<(), String> {
        let clock = self.clock.ms();
        if clock < self.quiet_until {
            return Ok(());
        }
        while self.lines.front().is_some_and(|line| line.time <= clock + ENTER + 20) {
            if let Some(Line { time, text, back_to }) = self.lines.pop_front() {
                match (self.enter(&text, time)?, back_to) {
                    (true, Some(count)) => self.overtake(time, count)?,
                    (true, None) => self.tell()?,
                    (false, _) => self.lines.clear(),
                }
            }
        }
        while let Some(place) = self.agenda.iter().position(|(time, _)| *time <= clock) {
            let (_, deed) = self.agenda.remove(place);
            if clock + ENTER < self.scale.end() {
                self.does(deed)?;
            }
        }
        Ok(())
    }
}

fn planned(title: u64, time: u64, count: u64) -> Line {
    Line { time, text: format!("change {title} {time} {count}"), back_to: None }
}

#[cfg(test)]
mod tests {
    use super::*;

    #[test]
    fn answers_are_read() {
        assert_eq!(numbers("0 7 12"), Some(vec![7, 12]));
        assert_eq!(numbers("9 too few free lanes, 2 free, room from 3264000"), None);
        assert_eq!(time_behind("9 too few free lanes, 2 free, room from 3264000", "room from"), Some(3_264_000));
        assert_eq!(time_behind("9 too few free lanes, 2 free, no later time has room", "room from"), None);
    }

    #[test]
    fn a_run_has_every_deed() {
        let scale = Scale::of(20, 1 << 20, 20).expect("a scale");
        let deeds: Vec<Deed> = agenda(&scale, true).into_iter().map(|(_, deed)| deed).collect();
        for deed in [Deed::Rates, Deed::Hold(1), Deed::Open(SKIP), Deed::Close(1), Deed::Kill, Deed::Flutter] {
            assert!(deeds.contains(&deed));
        }
    }
}
