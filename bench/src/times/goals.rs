//! What the times and stacks of the second subject are to keep to, beside the first.

use super::measure::Timing;
use super::stack::Stack;
use super::table::label;

/// How many times the first subject's nanoseconds a call may take, and a question of an active lane.
const RATIO: f64 = 1.5;
const ACTIVE_LANE: (&str, f64) = ("lane, active", 1.0);
/// The longest that the waits over a full log may take, in nanoseconds.
const WAITS: (&str, f64) = ("waits, ", 1e9);
/// The most bytes of stack: of the calls of a box, and of all.
const BOX_STACK: usize = 24 << 10;
const STACK: usize = 64 << 10;
/// How the names of a box's calls begin.
const BOX: [&str; 7] = [
    "lane, ",
    "lane 2 ",
    "small box",
    "status",
    "plan, ",
    "skip-forward plan",
    "take",
];

/// Which goals were missed, and how many there are.
#[derive(Default)]
pub struct Goals {
    many: usize,
    missed: Vec<String>,
}

impl Goals {
    fn ask(&mut self, kept: bool, missed: impl FnOnce() -> String) {
        self.many += 1;
        if !kept {
            self.missed.push(missed());
        }
    }

    fn ratio(&mut self, timing: &Timing) {
        let [one, two] = timing.nanoseconds;
        let most = if timing.name.starts_with(ACTIVE_LANE.0) {
            ACTIVE_LANE.1
        } else {
            RATIO
        };
        let name = label(timing.name, timing.size);
        let ratio = two / one;
        self.ask(ratio <= most, || {
            format!("missed: {name}: {ratio:.2} times, the goal is {most:.1}")
        });
    }

    fn waits(&mut self, timing: &Timing) {
        let seconds = timing.nanoseconds[1] / 1e9;
        let kept = timing.nanoseconds[1] < WAITS.1;
        self.ask(kept, || {
            format!("missed: {}: {seconds:.1} s, the goal is under 1 s", timing.name)
        });
    }

    fn stack(&mut self, stack: &Stack) {
        let of_a_box = BOX.iter().any(|name| stack.name.starts_with(name));
        let most = if of_a_box { BOX_STACK } else { STACK };
        let name = label(stack.name, stack.size);
        self.ask(stack.bytes <= most, || {
            format!("missed: {name}: {} bytes of stack, the goal is {most}", stack.bytes)
        });
    }

    pub fn of_times(timings: &[Timing]) -> Goals {
        let mut goals = Goals::default();
        for timing in timings {
            goals.ratio(timing);
            if timing.name.starts_with(WAITS.0) {
                goals.waits(timing);
            }
        }
        goals
    }

    pub fn of_stacks(stacks: &[Stack]) -> Goals {
        let mut goals = Goals::default();
        stacks.iter().for_each(|stack| goals.stack(stack));
        goals
    }

    /// A line for each that was missed, and how many were kept.
    pub fn told(&self) -> String {
        let mut text: String = self.missed.iter().map(|line| format!("{line}\n")).collect();
        let kept = self.many - self.missed.len();
        text += &format!("{kept} of {} goals kept\n", self.many);
        text
    }
}
