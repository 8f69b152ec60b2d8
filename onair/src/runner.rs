//! The runner: starts the head-end, the modulator, the receiver and the boxes, lets the operator work, and sees that everything ends.

use crate::carry;
use crate::given::{root, Given};
use crate::headend::{HeadEnd, Start};
use crate::operator::{Desk, Operator};
use crate::play::SLACK;
use crate::report::{self, Outcome};
use crate::scale::{Scale, FILM_MIN, MAIN};
use crate::seats::{guests, Guest, Seats};
use crate::system::{self, Clock};
use crate::words::{listed, Words};
use std::fs::{self, File};
use std::io;
use std::process::{Child, ChildStdin, Command, Stdio};
use std::time::Duration;

/// How long behind the run's end whatever is left is ended, in ms.
const PATIENCE: u64 = 3_000;

/// What every part of a run is told.
struct Run {
    given: Given,
    film: Vec<u8>,
    scale: Scale,
    clock: Clock,
    port: u16,
    root: String,
}

impl Run {
    fn path(&self, name: &str) -> String {
        format!("{}/{name}", self.given.folder)
    }

    fn words(&self) -> Words {
        Words::default()
            .with("start", self.clock.start)
            .with("end", self.scale.end())
            .with("port", self.port)
            .with("pool", self.scale.pool())
            .with("film", &self.given.film)
            .with("journal", self.path("journal"))
            .with("folder", &self.given.folder)
    }

    /// Starts a part of the run as a process of its own; what it says goes to a file.
    fn spawn(&self, part: &str, words: &Words, name: &str, input: Stdio) -> Result<Child, String> {
        let program = std::env::current_exe().map_err(|why| format!("this program: {why}"))?;
        let out = File::create(self.path(&format!("{name}.txt"))).map_err(|why| format!("{name}.txt: {why}"))?;
        let errors = File::create(self.path(&format!("{name}.err"))).map_err(|why| format!("{name}.err: {why}"))?;
        let mut command = Command::new(program);
        command.arg(part).args(words.lines()).stdin(input).stdout(out).stderr(errors);
        command.spawn().map_err(|why| format!("{name} is not started: {why}"))
    }

    fn box_words(&self, guest: &Guest) -> Words {
        self.words()
            .with("end", self.scale.end() + SLACK + 200)
            .with("ask", guest.ask)
            .with("titles", listed(&guest.titles))
            .with("size", self.scale.size)
            .with("loss", self.given.loss)
            .with("seed", self.given.seed * 1_000 + guest.number)
            .with("old", self.given.old)
    }

    fn spawn_box(&self, guest: &Guest) -> Result<Child, String> {
        let name = format!("box-{}", guest.number);
        let mut words = self
            .box_words(guest)
            .with("out", self.path(&format!("{name}.film")))
            .with("report", self.path(&format!("{name}.report")));
        if self.given.loss > 0.0 {
            words = words.with("record", self.path(&format!("{name}.record")));
        }
        self.spawn("box", &words, &name, Stdio::null())
    }

    /// Leaves a line that starts one more box while the run goes on, which plays to standard output: a player can show it.
    fn leave_watch(&self) -> Result<(), String> {
        let guest = Guest { number: 0, on: 0, ask: 0, titles: vec![MAIN], stopped: None };
        let words =
            self.box_words(&guest).with("loss", 0).with("old", false).with("out", "-").with("report", "/dev/null");
        let program = std::env::current_exe().map_err(|why| format!("this program: {why}"))?;
        let quoted: Vec<String> = words.lines().map(|word| format!("'{}'", word.replace('\'', "'\\''"))).collect();
        let line = format!("exec '{}' box {}\n", program.display(), quoted.join(" "));
        fs::write(self.path("watch.sh"), line).map_err(|why| format!("watch.sh: {why}"))
    }

    fn headend(&self) -> Result<HeadEnd, String> {
        let pool = self.scale.pool().to_string();
        let words = [self.root.clone() + "/checks/start", "headend".into(), pool, self.path("journal")];
        HeadEnd::start(Start { words: words.to_vec(), errors: self.path("headend.err") })
    }

    /// Whether a box that has ended played the film; what it played is removed.
    fn has_played(&self, guest: &Guest) -> bool {
        let name = self.path(&format!("box-{}.film", guest.number));
        let same = fs::read(&name).is_ok_and(|played| played == self.film);
        same & fs::remove_file(name).is_ok()
    }

    fn tell_progress(&self, operator: &Operator, seats: &Seats) {
        let (seconds, notices, refused) = (self.clock.ms() / 1_000, operator.sequence, operator.refusals);
        let (ended, all) = (seats.ended(), seats.seats.len());
        println!("{seconds:>3} s: {notices} notices, {refused} lines refused, {ended} of {all} boxes have played");
    }

    /// The run itself, from the first opening to the last box.
    fn goes_on(&self, operator: &mut Operator, seats: &mut Seats) -> Result<(), String> {
        let step = if self.given.seconds > 30 { 5_000 } else { 2_000 };
        let mut next = step;
        let last = self.scale.end() + PATIENCE;
        while self.clock.ms() < self.scale.end() || (seats.ended() < seats.seats.len() && self.clock.ms() < last) {
            seats.work(|guest| self.spawn_box(guest), |guest| self.has_played(guest), self.clock.ms())?;
            operator.work()?;
            if self.clock.ms() >= next {
                self.tell_progress(operator, seats);
                next += step;
            }
            std::thread::sleep(Duration::from_millis(2));
        }
        Ok(())
    }
}

/// A process that is ended, should it not have ended by itself.
struct Part(Child);

impl Part {
    /// Waits for it until a time of the run. Whether it ended by itself, and was content.
    fn finish(mut self, clock: Clock, until: u64) -> bool {
        while clock.ms() < until {
            if let Ok(Some(status)) = self.0.try_wait() {
                return status.success();
            }
            std::thread::sleep(Duration::from_millis(10));
        }
        false
    }

    fn input(&mut self) -> Result<ChildStdin, String> {
        self.0.stdin.take().ok_or_else(|| "a process has no input".into())
    }
}

impl Drop for Part {
    fn drop(&mut self) {
        // it is gone in either case
        let _ = self.0.kill();
        let _ = self.0.wait();
    }
}

/// Waits for the receiver's first line.
fn wait_until_tuned(name: &str) -> Result<(), String> {
    for _ in 0..500 {
        if fs::read_to_string(name).is_ok_and(|text| text.starts_with("tuned=1")) {
            return Ok(());
        }
        std::thread::sleep(Duration::from_millis(10));
    }
    Err("the receiver is not tuned after 5 seconds".into())
}

/// The folder of the run, without what the last one left there.
fn make_folder(folder: &str) -> Result<(), String> {
    fs::create_dir_all(folder).map_err(|why| format!("{folder}: {why}"))?;
    let starts =
        ["box-", "air-", "arrivals-", "journal", "headend.", "modulator.", "receiver.", "lines.", "table.", "watch."];
    for entry in fs::read_dir(folder).map_err(|why| format!("{folder}: {why}"))?.flatten() {
        let name = entry.file_name().to_string_lossy().into_owned();
        if starts.iter().any(|start| name.starts_with(start)) {
            fs::remove_file(entry.path()).map_err(|why| format!("{name}: {why}"))?;
        }
    }
    Ok(())
}

/// Measures what the machine carries, and how the run is to be.
fn measured(given: &Given, size: u64, port: u16) -> Result<Scale, String> {
    if size < FILM_MIN {
        return Err(format!("{}: a film has {FILM_MIN} bytes or more", given.film));
    }
    let trial = carry::trial(port)?;
    let scale =
        Scale::of(given.seconds, size, trial.shortest_tick()).ok_or("no tick is short enough for that length")?;
    if let Some(why) = trial.refusal(&scale, given.boxes) {
        return Err(why);
    }
    println!(
        "a film of {size} bytes on {} lanes, ticks of {} ms; the main title is {} ms long and has {} cells",
        scale.pool(),
        scale.tick,
        scale.film_ms(),
        1 << scale.cap
    );
    println!(
        "a trial: sleepers wake {} us late, and the run takes {:.0} of a hundred parts of what it may",
        trial.late,
        100.0 * trial.load(&scale, given.boxes)
    );
    Ok(scale)
}

/// Runs, and says whether all held.
pub fn run(given: Given) -> Result<bool, String> {
    let port = 20_000 + (std::process::id() % 240) as u16 * 50; // below those that the system gives out
    let failed = |why: io::Error| format!("{}: {why}", given.film);
    let scale = measured(&given, fs::metadata(&given.film).map_err(failed)?.len(), port)?;
    let film = fs::read(&given.film).map_err(failed)?;
    make_folder(&given.folder)?;
    let clock = Clock { start: system::micros() + 500_000 + given.boxes * 10_000 };
    let run = Run { given, film, scale, clock, port, root: root() };
    run.leave_watch()?;
    let receiver = Part(run.spawn("receiver", &run.words(), "receiver", Stdio::null())?);
    wait_until_tuned(&run.path("receiver.txt"))?;
    let mut modulator = Part(run.spawn("modulator", &run.words(), "modulator", Stdio::piped())?);
    let mut seats = Seats::of(guests(&run.given, &run.scale));
    seats.work(|guest| run.spawn_box(guest), |_| false, 0)?;
    let desk = Desk { headend: run.headend()?, journal: run.path("journal"), modulator: modulator.input()? };
    let mut operator = Operator::new(desk, clock, scale, run.given.seed, run.given.swap || run.given.old);
    let went = operator.begin().and_then(|()| run.goes_on(&mut operator, &mut seats));
    let lines = operator.transcript.join("\n") + "\n";
    fs::write(run.path("lines.txt"), lines).map_err(|why| format!("lines.txt: {why}"))?;
    went?;
    seats.end();
    run.tell_progress(&operator, &seats);
    let until = run.scale.end() + PATIENCE;
    let ended = modulator.finish(clock, until) & receiver.finish(clock, until);
    let Operator { swaps, kills, refusals, .. } = operator;
    report::judge(&Outcome {
        given: run.given,
        film: run.film,
        scale,
        root: run.root,
        swaps,
        kills,
        refusals,
        ended,
        seats,
    })
}
