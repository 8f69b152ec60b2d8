//! What a box said of its play, and the table of all of them.

use crate::grid::Grid;
use crate::programs::Papers;
use crate::seats::{Guest, Seat};
use crate::words::Words;

/// A notice that a box refused, with its answer and what it did: nothing yet, or after how many ms it had taken it, and from where.
#[derive(Clone, Debug, PartialEq, Eq)]
pub struct Refusal {
    pub sequence: u64,
    pub answer: u8,
    pub mended: Option<(u64, String)>,
}

/// What a box said, and whether its film is the film.
pub struct Tale {
    pub guest: Guest,
    pub hung: bool,
    pub title: u64,
    pub start: u64,
    pub admitted: u64,
    pub ready: u64,
    pub passed: u64,
    pub slot: u64,
    pub count: u64,
    pub most: u64,
    /// Cells that came too late or never, rising.
    pub missed: Vec<u64>,
    /// Cells that had come and were shown too late.
    pub stalled: Vec<u64>,
    pub foreign: u64,
    pub refused: Vec<Refusal>,
    pub lost: u64,
    /// After how many ms it had caught up, and the last sequence that it heard.
    pub caught_up: u64,
    pub sequence: u64,
    pub same: bool,
    pub digest: String,
    pub cpu_us: u64,
    pub memory_kb: u64,
}

fn refusal_of(text: &str) -> Option<Refusal> {
    let mut parts = text.split(':');
    let (sequence, answer) = (parts.next()?.parse().ok()?, parts.next()?.parse().ok()?);
    let mended = parts.next()?.parse().ok().zip(parts.next().map(str::to_string));
    Some(Refusal { sequence, answer, mended })
}

/// Reads what a box has left.
pub fn tale(seat: &Seat, papers: &Papers) -> Result<Tale, String> {
    let number = seat.guest.number;
    let name = papers.path(&format!("box-{number}.report"));
    let report = std::fs::read_to_string(&name).map_err(|why| format!("{name}: {why}"))?;
    let words = Words::of(report.lines());
    let title = words.get("title").map_err(|_| format!("box {number} was not admitted"))?;
    let (count, tick): (u64, u64) = (words.get("count")?, words.get("tick")?);
    let opening = papers.opening(title).ok_or("a box plays a title that nobody opened")?;
    let mut missed: Vec<u64> = [words.list("late")?, words.list("missing")?].concat();
    missed.extend(words.get::<u64>("turn")?..words.get("film")?);
    missed.sort_unstable();
    let began = words.list("began")?;
    let refused: String = words.get("refused")?;
    Ok(Tale {
        guest: seat.guest.clone(),
        hung: seat.hung,
        title,
        start: words.get("start")?,
        admitted: words.get("admitted")?,
        ready: words.get("ready")?,
        passed: words.get("passed")?,
        slot: tick * Grid::of(opening, papers.size).slot(opening, count),
        count,
        most: words.get("most")?,
        missed,
        stalled: words.list("stalled")?,
        foreign: words.get("foreign")?,
        refused: refused.split(',').filter_map(refusal_of).collect(),
        lost: words.get::<String>("lost")?.split(',').filter(|lost| !lost.is_empty()).count() as u64,
        caught_up: began.get(1).map_or(0, |at| at.saturating_sub(seat.guest.on)),
        sequence: words.get("sequence")?,
        same: seat.same,
        digest: words.get("digest")?,
        cpu_us: words.get("cpu_us")?,
        memory_kb: words.get("memory_kb")?,
    })
}

impl Tale {
    /// Whether it played the film, each cell in its turn.
    pub fn is_good(&self) -> bool {
        self.same && self.missed.is_empty() && self.stalled.is_empty()
    }
}

pub fn told_missed(missed: &[u64]) -> String {
    match missed {
        [] => "none".into(),
        [first] => format!("{first}"),
        [first, rest @ ..] => format!("{first} and {} more", rest.len()),
    }
}

fn row(tale: &Tale) -> String {
    let wait = tale.admitted - tale.guest.ask;
    let mended = tale.refused.iter().filter(|refusal| refusal.mended.is_some()).count();
    let on = if tale.guest.on == 0 { "-".into() } else { tale.caught_up.to_string() };
    format!(
        "{:>4} {:>5} {:>6} {:>6} {:>5} {:>5} {:>6} {:>5} {:>7} {:>6} {:16} {:16} {}",
        tale.guest.number,
        tale.title,
        tale.guest.ask,
        on,
        wait,
        tale.slot,
        tale.count,
        tale.most,
        tale.refused.len() as u64 + tale.lost,
        mended,
        told_missed(&tale.missed),
        tale.digest,
        if tale.same { "the film" } else { "not the film" }
    )
}

pub fn table(tales: &[Tale]) -> String {
    let head =
        " box title  asked caught  wait  slot  lanes  kept refused mended missed           digest           played";
    let rows: Vec<String> = tales.iter().map(row).collect();
    format!("{head}\n{}\n", rows.join("\n"))
}

#[cfg(test)]
mod tests {
    use super::*;

    #[test]
    fn refusals_are_read() {
        let mended = Some((87, "carousel".to_string()));
        assert_eq!(refusal_of("15:12:87:carousel"), Some(Refusal { sequence: 15, answer: 12, mended }));
        assert_eq!(refusal_of("15:12:-"), Some(Refusal { sequence: 15, answer: 12, mended: None }));
        assert_eq!(
            (told_missed(&[]), told_missed(&[4]), told_missed(&[4, 9])),
            ("none".into(), "4".into(), "4 and 1 more".into())
        );
    }
}
