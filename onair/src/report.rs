//! What came of a run: the table of its boxes, and of each thing that has to hold whether it did.

use crate::follower::LEAD;
use crate::given::Given;
use crate::library::{self, Kind, Notice, LANES, NOTHING, OUT_OF_TURN};
use crate::modulator::CAROUSEL;
use crate::programs::Papers;
use crate::random::Digest;
use crate::scale::Scale;
use crate::seats::Seats;
use crate::tale::{table, tale, told_missed, Tale};
use crate::words::Words;

/// How a run ended.
pub struct Outcome {
    pub given: Given,
    pub film: Vec<u8>,
    pub scale: Scale,
    pub root: String,
    /// Raises that were overtaken, and when.
    pub swaps: Vec<(u64, u64)>,
    pub kills: u64,
    pub refusals: u64,
    /// Whether modulator and receiver ended by themselves, without a complaint.
    pub ended: bool,
    pub seats: Seats,
}

/// Lines of what held and what did not.
#[derive(Default)]
struct Ledger {
    failed: u64,
}

impl Ledger {
    fn note(&mut self, held: bool, what: String) {
        self.failed += u64::from(!held);
        println!("{} {what}", if held { "holds:" } else { "FAILS:" });
    }

    fn try_note(&mut self, outcome: Result<(bool, String), String>) {
        match outcome {
            Ok((held, what)) => self.note(held, what),
            Err(why) => self.note(false, why),
        }
    }
}

/// Every cell that a box missed by `air`'s own judgement of what it received: the lowest, that one filled in, the next, and so on.
fn missed_by_air(papers: &Papers, journal: &[u8], tale: &Tale) -> Result<Vec<u64>, String> {
    let name = papers.path(&format!("box-{}.record", tale.guest.number));
    let text = std::fs::read_to_string(&name).map_err(|why| format!("{name}: {why}"))?;
    let mut record: Vec<[u16; LANES]> = text.lines().map(record_row).collect();
    let mut missed = Vec::new();
    loop {
        let row = library::air(papers.pool, tale.title, journal, &record);
        let row = row.map_err(|refusal| format!("air refuses the record of box {}: {refusal}", tale.guest.number))?;
        let Some(cell) = row.last().copied().filter(|cell| *cell != NOTHING) else {
            return Ok(missed);
        };
        missed.push(u64::from(cell));
        let turn = &mut record[tale.start as usize + usize::from(cell)];
        let free = turn.iter_mut().find(|shown| **shown == NOTHING).ok_or("a tick has twelve lanes in use")?;
        *free = cell;
    }
}

fn record_row(line: &str) -> [u16; LANES] {
    let mut row = [NOTHING; LANES];
    row.iter_mut().zip(line.split(' ')).for_each(|(cell, word)| *cell = word.parse().unwrap_or(NOTHING));
    row
}

/// Each box missed what `air` says over the record of its own reception.
fn losses(papers: &Papers, journal: &[u8], tales: &[&Tale], ledger: &mut Ledger) {
    let (mut cells, mut checked, mut wrong) = (0, 0, Vec::new());
    let padded = |tale: &&&Tale| papers.opening(tale.title).is_some_and(|opening| opening.kind == Kind::Opens);
    for tale in tales.iter().filter(padded) {
        checked += 1;
        cells += tale.missed.len();
        match missed_by_air(papers, journal, tale) {
            Ok(missed) if missed == tale.missed => {}
            other => wrong.push(format!("box {}: {:?} by itself, {other:?} by air", tale.guest.number, tale.missed)),
        }
    }
    ledger.note(
        wrong.is_empty(),
        format!("air over each box's own reception says the cells that it missed: {cells} cells in {checked} boxes"),
    );
    wrong.iter().for_each(|line| println!("       {line}"));
    if let Some(tale) = tales.iter().filter(padded).find(|tale| !tale.missed.is_empty()) {
        let record = papers.path(&format!("box-{}.record", tale.guest.number));
        ledger.try_note(papers.air_of(tale.title, &record, tale.start).map(|cell| {
            let what = format!(
                "the program air says of box {}, which began at tick {}: {cell:?}",
                tale.guest.number, tale.start
            );
            (cell == tale.missed.first().copied(), what)
        }));
    }
}

/// Every box played the film.
fn plays(tales: &[&Tale], ledger: &mut Ledger) {
    let good = tales.iter().filter(|tale| tale.is_good()).count();
    ledger.note(
        good == tales.len(),
        format!("{good} of {} boxes played the film, byte for byte and in time", tales.len()),
    );
    for tale in tales.iter().filter(|tale| !tale.is_good()) {
        println!("       box {}: missed {:?}, showed too late {:?}", tale.guest.number, tale.missed, tale.stalled);
    }
}

/// Boxes that do not mind the order: some froze that believed in another count than the journal has.
fn freezes(papers: &Papers, tales: &[&Tale], ledger: &mut Ledger) {
    let frozen: Vec<(&Tale, u64)> = tales
        .iter()
        .filter(|tale| !tale.missed.is_empty())
        .map(|tale| (*tale, papers.count(tale.title, tale.admitted)))
        .collect();
    let misled = frozen.iter().filter(|(tale, count)| tale.count != *count).count();
    let (froze, all) = (frozen.len(), tales.len());
    ledger.note(
        misled > 0,
        format!("without the order {froze} of {all} boxes froze, {misled} of them under a count that did not rule"),
    );
    for (tale, count) in frozen {
        println!(
            "       box {}: title {}, from {} ms under {} lanes of {count}, froze at cell {}; {} cells missed, {} datagrams of another title",
            tale.guest.number, tale.title, tale.admitted, tale.count, tale.missed[0], tale.missed.len(), tale.foreign
        );
    }
}

/// Each box that listened while a notice was overtaken refused the one that came first, and took both from the carousel.
fn overtakings(outcome: &Outcome, tales: &[&Tale], ledger: &mut Ledger) {
    for (raise, at) in &outcome.swaps {
        let there = |tale: &&&Tale| tale.guest.on + tale.caught_up + CAROUSEL < *at && tale.sequence > *raise;
        let drop = raise + 1;
        let mended = |tale: &&&Tale| {
            let of_drop =
                tale.refused.iter().filter(|refusal| refusal.sequence == drop && refusal.answer == OUT_OF_TURN);
            of_drop.clone().count() > 0 && of_drop.into_iter().all(|refusal| refusal.mended.is_some())
        };
        let (all, good) = (tales.iter().filter(there).count(), tales.iter().filter(there).filter(mended).count());
        let did = "answered 12, waited, and took both from the carousel";
        let what = format!("notice {drop} overtook {raise}: {good} of {all} boxes {did}");
        ledger.note(all == good, what);
    }
    ledger.note(!outcome.swaps.is_empty(), format!("{} times a drop overtook its raise", outcome.swaps.len()));
}

/// Every box began at an admission, and waited as long as `waits` says.
fn waiting(papers: &Papers, journal: &[u8], tales: &[Tale], ledger: &mut Ledger) {
    let begins = |tale: &&Tale| {
        let marks = library::admissions(papers.pool, tale.title, journal, tale.start as usize + 1);
        // each tick of a skip-forward title is one, and `waits` below says so
        let steady = papers.opening(tale.title).is_some_and(|opening| opening.kind == Kind::OpensSkip);
        steady || marks.is_ok_and(|marks| marks.last() == Some(&true))
    };
    let good = tales.iter().filter(begins).count();
    ledger.note(good == tales.len(), format!("{good} of {} boxes began at an admission of the journal", tales.len()));
    for tale in tales.iter().filter(|tale| !begins(tale)) {
        println!("       box {}: at tick {} of title {}", tale.guest.number, tale.start, tale.title);
    }
    for title in papers.titles() {
        let of_it: Vec<&Tale> = tales.iter().filter(|tale| tale.title == title && tale.passed == 0).collect();
        let arrivals: Vec<u64> = of_it.iter().map(|tale| tale.ready).collect();
        let (boxes, waited) = (arrivals.len() as u64, of_it.iter().map(|tale| tale.admitted - tale.ready).sum::<u64>());
        if boxes > 0 {
            ledger.try_note(papers.waits(title, &arrivals).map(|(admitted, sum)| {
                let what = format!(
                    "title {title}: {boxes} boxes, once tuned, waited {waited} ms; waits says {admitted} and {sum} ms"
                );
                (admitted == boxes && sum == waited, what)
            }));
        }
    }
}

/// Every box began at the first admission behind its question; where datagrams are lost it may not know that one is.
fn next_admissions(given: &Given, tales: &[Tale], ledger: &mut Ledger) {
    let passed = tales.iter().filter(|tale| tale.passed > 0).count();
    let what = format!("{} of {} boxes began at the next admission", tales.len() - passed, tales.len());
    ledger.note(passed == 0 || given.loss > 0.0, what);
    let refusals = tales.iter().flat_map(|tale| &tale.refused);
    let other = refusals.filter(|refusal| refusal.answer != OUT_OF_TURN).count();
    ledger.note(other == 0, format!("{other} notices were refused for another reason than their turn"));
}

/// How many of the journal's notices there are of each kind.
fn tell_kinds(papers: &Papers) {
    let of = |kinds: &[Kind]| papers.notices.iter().filter(|notice| kinds.contains(&notice.kind)).count();
    println!(
        "       {} titles opened and {} closed, {} changes of a count, {} holds and {} lifts of doors",
        of(&[Kind::Opens, Kind::OpensSkip]),
        of(&[Kind::Closes]),
        of(&[Kind::Changes]),
        of(&[Kind::Holds]),
        of(&[Kind::Lifts])
    );
}

/// The journal is good, the air carried what it says, and nobody starved by the record.
fn records(papers: &Papers, ledger: &mut Ledger) {
    tell_kinds(papers);
    ledger.try_note(papers.is_listed().map(|listed| {
        (listed, format!("listing answers 0 to each of the journal's {} notices", papers.notices.len()))
    }));
    for title in papers.titles() {
        ledger.try_note(papers.differing(title).map(|(ticks, differ)| {
            (differ == 0, format!("title {title}: of {ticks} recorded ticks {differ} differ from playout"))
        }));
        if papers.opening(title).is_some_and(|opening| opening.kind == Kind::Opens) {
            let record = papers.path(&format!("air-{title}.txt"));
            ledger.try_note(papers.air(title, &record).map(|(played, starved)| {
                (starved == 0, format!("title {title}: air says played through {played}, starved {starved}"))
            }));
        }
    }
}

/// What the modulator and the receiver say of themselves.
fn parts(outcome: &Outcome, papers: &Papers, ledger: &mut Ledger) -> Result<(), String> {
    let read = |name: &str| std::fs::read_to_string(papers.path(name)).map_err(|why| format!("{name}: {why}"));
    let (sent, seen) = (read("modulator.txt")?, read("receiver.txt")?);
    let (sent, seen) = (Words::of(sent.lines()), Words::of(seen.lines()));
    ledger.note(outcome.ended, "modulator and receiver ended by themselves".into());
    let get = |name: &str| sent.get::<u64>(name);
    let seconds = outcome.scale.seconds;
    println!(
        "       sends: {} datagrams, {} bytes a second; half within {} us of their time, 999 of 1000 within {} us, the last {} us late",
        get("datagrams")?, get("bytes")? / seconds, get("late_half")?, get("late_most")?, get("late_worst")?
    );
    println!(
        "       notices: {} of {} bytes in all, the carousel {} bytes a second, snapshots {} bytes a second",
        get("notices")?,
        get("notice_bytes")?,
        get("carousel_bytes")? / seconds,
        get("snapshot_bytes")? / seconds
    );
    let lead = get("least_lead")?;
    ledger
        .note(lead >= LEAD, format!("every notice was out {lead} ms or more before its time, and {LEAD} are promised"));
    let (datagrams, wrong): (u64, u64) = (seen.get("datagrams")?, seen.get("wrong")?);
    ledger.note(
        datagrams == get("datagrams")? && wrong == 0,
        format!("the receiver saw {datagrams} datagrams, {wrong} of them wrong"),
    );
    Ok(())
}

/// What the boxes cost.
fn tell_costs(tales: &[&Tale]) {
    let mean = |of: &dyn Fn(&Tale) -> u64| tales.iter().map(|tale| of(tale)).sum::<u64>() / tales.len().max(1) as u64;
    let late: Vec<u64> = tales.iter().filter(|tale| tale.guest.on > 0).map(|tale| tale.caught_up).collect();
    println!(
        "       a box: {} ms of processor time, {} KB of memory, {} cells kept at most; {} boxes came late, and had caught up after {} ms at most",
        mean(&|tale| tale.cpu_us) / 1_000,
        mean(&|tale| tale.memory_kb),
        tales.iter().map(|tale| tale.most).max().unwrap_or(0),
        late.len(),
        late.iter().max().unwrap_or(&0)
    );
}

/// What the boxes said, one behind the other; one that said nothing does not hold.
fn tales(outcome: &Outcome, papers: &Papers, ledger: &mut Ledger) -> Vec<Tale> {
    let mut tales = Vec::new();
    for seat in &outcome.seats.seats {
        match tale(seat, papers) {
            Ok(tale) => tales.push(tale),
            Err(why) => ledger.note(false, why),
        }
    }
    tales
}

/// The boxes that were to play, and those that were stopped.
fn judge_boxes(outcome: &Outcome, papers: &Papers, journal: &[u8], tales: &[Tale], ledger: &mut Ledger) {
    let given = &outcome.given;
    let (stopped, playing): (Vec<&Tale>, Vec<&Tale>) = tales.iter().partition(|tale| tale.guest.stopped.is_some());
    match (given.old, given.loss > 0.0) {
        (true, _) => freezes(papers, &playing, ledger),
        (false, true) => losses(papers, journal, &playing, ledger),
        (false, false) => plays(&playing, ledger),
    }
    if given.swap && !given.old && given.loss == 0.0 {
        overtakings(outcome, &playing, ledger);
    }
    for tale in stopped {
        let (number, missed, stalled) = (tale.guest.number, told_missed(&tale.missed), told_missed(&tale.stalled));
        let what = format!("box {number} was stopped, and says so: cells missed {missed}, shown too late {stalled}");
        ledger.note(!tale.missed.is_empty() || !tale.stalled.is_empty(), what);
    }
    if !given.old {
        waiting(papers, journal, tales, ledger);
        next_admissions(given, tales, ledger);
    }
    let hung = tales.iter().filter(|tale| tale.hung).count();
    ledger.note(hung == 0, format!("{} boxes ended by themselves", tales.len() - hung));
    tell_costs(&playing);
}

/// The table and what held; whether all did.
pub fn judge(outcome: &Outcome) -> Result<bool, String> {
    let folder = &outcome.given.folder;
    let journal = std::fs::read(format!("{folder}/journal")).map_err(|why| format!("{folder}/journal: {why}"))?;
    let papers = Papers {
        root: outcome.root.clone(),
        folder: folder.clone(),
        pool: outcome.scale.pool(),
        notices: Notice::all(&journal),
        size: outcome.film.len() as u64,
    };
    let mut ledger = Ledger::default();
    let tales = tales(outcome, &papers, &mut ledger);
    let text = table(&tales);
    print!("{text}");
    std::fs::write(papers.path("table.txt"), text).map_err(|why| format!("table.txt: {why}"))?;
    let mut digest = Digest::new();
    digest.add(&outcome.film);
    println!("the film's digest is {:016x}", digest.0);
    judge_boxes(outcome, &papers, &journal, &tales, &mut ledger);
    records(&papers, &mut ledger);
    parts(outcome, &papers, &mut ledger)?;
    let (kills, refusals) = (outcome.kills, outcome.refusals);
    ledger.note(
        kills > 0,
        format!("the head-end was killed {kills} times, and went on with its journal; {refusals} lines were refused"),
    );
    println!(
        "journal, for listing, waits and chart with {} lanes: {folder}/journal; the air: {folder}/air-ID.txt",
        papers.pool
    );
    Ok(ledger.failed == 0)
}

#[cfg(test)]
mod tests {
    use super::*;

    #[test]
    fn a_record_is_read() {
        assert_eq!(record_row("3 - 7 - - - - - - - - -")[..3], [3, NOTHING, 7]);
    }
}
