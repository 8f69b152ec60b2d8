//! What the product's own programs say of a run: `listing`, `air`, `playout` and `waits` over its journal.

use crate::grid::Grid;
use crate::library::{Agent, Notice};
use std::process::Command;

/// Where the programs are, and what they are to read.
pub struct Papers {
    pub root: String,
    pub folder: String,
    pub pool: u64,
    pub notices: Vec<Notice>,
    pub size: u64,
}

impl Papers {
    pub fn path(&self, name: &str) -> String {
        format!("{}/{name}", self.folder)
    }

    pub fn opening(&self, title: u64) -> Option<&Notice> {
        self.notices.iter().rev().find(|notice| notice.opens() && notice.title == title)
    }

    /// The titles that were opened, by id.
    pub fn titles(&self) -> Vec<u64> {
        let mut titles: Vec<u64> =
            self.notices.iter().filter(|notice| notice.opens()).map(|notice| notice.title).collect();
        titles.sort_unstable();
        titles.dedup();
        titles
    }

    /// The count that ruled a title at a time, by the journal.
    pub fn count(&self, title: u64, time: u64) -> u64 {
        let Ok(mut agent) = Agent::fresh(self.pool) else {
            return 0;
        };
        let taken = self.notices.iter().take_while(|notice| notice.time <= time);
        taken.for_each(|notice| agent.take(&notice.bytes).unwrap_or(()));
        agent.status(title, time).map_or(0, |standing| standing.count)
    }

    /// The lines that a program writes on the journal.
    fn run(&self, program: &str, words: &[String]) -> Result<Vec<String>, String> {
        let mut command = Command::new(format!("{}/checks/start", self.root));
        let output = command.arg(program).args(words).output().map_err(|why| format!("{program}: {why}"))?;
        Ok(String::from_utf8_lossy(&output.stdout).lines().map(str::to_string).collect())
    }

    fn of_title(&self, title: u64, more: &[String]) -> Vec<String> {
        let mut words = vec![self.pool.to_string(), title.to_string(), self.path("journal")];
        words.extend_from_slice(more);
        words
    }

    /// Whether the listing answers every notice with 0.
    pub fn is_listed(&self) -> Result<bool, String> {
        let journal = std::fs::File::open(self.path("journal")).map_err(|why| format!("the journal: {why}"))?;
        let mut command = Command::new(format!("{}/checks/start", self.root));
        command.arg("listing").arg(self.pool.to_string()).stdin(journal);
        let output = command.output().map_err(|why| format!("listing: {why}"))?;
        let text = String::from_utf8_lossy(&output.stdout).into_owned();
        let done = text.lines().filter(|line| line.split_whitespace().nth(3) == Some("0")).count();
        Ok(done == self.notices.len() && done == text.lines().count())
    }

    /// What `air` says of a record: how many played through, and how many starved.
    pub fn air(&self, title: u64, record: &str) -> Result<(u64, u64), String> {
        let lines = self.run("air", &self.of_title(title, &[record.to_string()]))?;
        match (number_behind(&lines, "played through "), number_behind(&lines, "starved ")) {
            (Some(played), Some(starved)) => Ok((played, starved)),
            _ => Err(format!("air says of title {title}: {}", lines.join(" / "))),
        }
    }

    /// What `air` says of one admission of a record: the lowest cell that it missed.
    pub fn air_of(&self, title: u64, record: &str, start: u64) -> Result<Option<u64>, String> {
        let lines = self.run("air", &self.of_title(title, &[record.to_string()]))?;
        let line = lines.iter().find(|line| line.starts_with(&format!("{start} ")));
        let line = line.ok_or_else(|| format!("air does not judge the admission at tick {start}"))?;
        Ok(line.split_whitespace().nth(1).and_then(|cell| cell.parse().ok()))
    }

    /// Of how many ticks of the recorded air the lanes showed something else than `playout` says, padding aside.
    pub fn differing(&self, title: u64) -> Result<(usize, usize), String> {
        let name = self.path(&format!("air-{title}.txt"));
        let record = std::fs::read_to_string(&name).map_err(|why| format!("{name}: {why}"))?;
        let ticks = record.lines().count();
        let opening = self.opening(title).ok_or("no such title")?;
        let film = Grid::of(opening, self.size).film;
        let played = self.run("playout", &self.of_title(title, &["0".into(), ticks.to_string()]))?;
        let sent = |cell: &str| cell.parse().is_ok_and(|cell: u64| cell < film);
        let masked = played.iter().map(|line| {
            let cells: Vec<&str> = line.split(' ').map(|cell| if sent(cell) { cell } else { "-" }).collect();
            cells.join(" ")
        });
        Ok((ticks, masked.zip(record.lines()).filter(|(told, seen)| told != seen).count() + ticks - played.len()))
    }

    /// What `waits` says of those who came to a title at given times: how many got in, and the sum of their waits.
    pub fn waits(&self, title: u64, arrivals: &[u64]) -> Result<(u64, u64), String> {
        let name = self.path(&format!("arrivals-{title}.txt"));
        let text: String = arrivals.iter().map(|arrival| format!("{arrival}\n")).collect();
        std::fs::write(&name, text).map_err(|why| format!("{name}: {why}"))?;
        let lines = self.run("waits", &self.of_title(title, &[name]))?;
        match (number_behind(&lines, "admitted "), number_behind(&lines, "sum of waits ")) {
            (Some(admitted), Some(sum)) => Ok((admitted, sum)),
            _ => Err(format!("waits says of title {title}: {}", lines.join(" / "))),
        }
    }
}

fn number_behind(lines: &[String], words: &str) -> Option<u64> {
    lines.iter().find_map(|line| line.strip_prefix(words)?.split(' ').next()?.parse().ok())
}

#[cfg(test)]
mod tests {
    use super::*;

    #[test]
    fn reports_are_read() {
        let lines = ["admitted 8".to_string(), "sum of waits 1639982 ms".to_string()];
        assert_eq!(number_behind(&lines, "admitted "), Some(8));
        assert_eq!(number_behind(&lines, "sum of waits "), Some(1_639_982));
        assert_eq!(number_behind(&lines, "starved "), None);
    }
}
