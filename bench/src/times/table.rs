//! Tables of what was measured of two subjects.

use super::measure::Timing;
use super::stack::Stack;

pub fn label(name: &str, size: Option<u64>) -> String {
    match size {
        Some(size) => format!("{name} {size}"),
        None => name.into(),
    }
}

fn shown(nanoseconds: f64) -> String {
    match nanoseconds {
        n if n < 100.0 => format!("{n:.1}"),
        n => format!("{n:.0}"),
    }
}

/// Nanoseconds of two subjects, and how many times the first one's the second takes.
pub fn times(names: [&str; 2], timings: &[Timing]) -> String {
    let [first, second] = names;
    let mut text = format!(
        "{:<46} {first:>12} {second:>12} {:>6}\n",
        "nanoseconds per call", "ratio"
    );
    for timing in timings {
        let [one, two] = timing.nanoseconds;
        let name = label(timing.name, timing.size);
        text += &format!("{name:<46} {:>12} {:>12} {:>6.2}\n", shown(one), shown(two), two / one);
    }
    text
}

/// How many times as long the largest size of each series takes as its smallest.
pub fn growth(names: [&str; 2], timings: &[Timing]) -> String {
    let [first, second] = names;
    let mut text = format!(
        "{:<38} {:>5} {:>5} {first:>9} {second:>9}\n",
        "times as long", "from", "to"
    );
    let same = |a: &Timing, b: &Timing| a.name == b.name && a.size.is_some();
    for series in timings.chunk_by(same).filter(|series| series.len() > 1) {
        let [from, to] = [&series[0], &series[series.len() - 1]];
        let [one, two] = [0, 1].map(|at| to.nanoseconds[at] / from.nanoseconds[at]);
        let [low, high] = [from, to].map(|timing| timing.size.unwrap_or(0));
        text += &format!("{:<38} {low:>5} {high:>5} {one:>9.1} {two:>9.1}\n", from.name);
    }
    text
}

/// Bytes of stack of two subjects.
pub fn stacks(names: [&str; 2], taken: [&[Stack]; 2]) -> String {
    let [first, second] = names;
    let mut text = format!(
        "{:<46} {first:>12} {second:>12}\n",
        "bytes of stack beyond the first 256"
    );
    for (one, two) in taken[0].iter().zip(taken[1]) {
        text += &format!(
            "{:<46} {:>12} {:>12}\n",
            label(one.name, one.size),
            one.bytes,
            two.bytes
        );
    }
    text
}
