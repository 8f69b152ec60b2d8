//! What a dropped lane owes (01, "Events"; 02, request 5): of each tick from the drop on, whether the cell that the lane
//! would have carried holds film and is in the plan of some admission before the drop at exactly that tick.

use super::life::Life;

/// The admissions before a tick that may still await something then, the latest first, under each count.
fn admissions_before(life: &Life, tick: u64) -> Vec<(u64, Vec<u64>)> {
    let mut by_count: Vec<(u64, Vec<u64>)> = Vec::new();
    let from = tick.saturating_sub(life.scheme.reach());
    for start in (from..tick).rev() {
        let Some(count) = life.admits(start) else {
            continue;
        };
        match by_count.iter_mut().find(|(other, _)| *other == count) {
            Some((_, starts)) => starts.push(start),
            None => by_count.push((count, vec![start])),
        }
    }
    by_count
}

/// Whether a box that began at one of these starts under a count awaits a cell at a tick.
fn awaited(life: &Life, count: u64, starts: &[u64], cell: u64, tick: u64) -> bool {
    let Some(taken) = life.scheme.taken_for(count, cell) else {
        return false;
    };
    // an earlier start lets the channel go earlier
    let taking = starts.iter().take_while(|start| tick < *start + taken);
    taking
        .into_iter()
        .any(|start| life.scheme.plans(count, *start, cell, tick))
}

/// The ticks that a lane owes which is dropped at a tick.
pub fn owed_ticks(life: &Life, lane: u64, at: u64) -> Vec<u64> {
    let admissions = admissions_before(life, at);
    let owed = |tick: &u64| {
        let cell = life.scheme.lane_cell(lane, *tick);
        life.holds_film(cell)
            && admissions
                .iter()
                .any(|(count, starts)| awaited(life, *count, starts, cell, *tick))
    };
    (at..at + life.scheme.reach()).filter(owed).collect()
}
