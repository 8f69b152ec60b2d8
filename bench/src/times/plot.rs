//! How times grow, as a picture: a panel for what grows with the cap and one for what grows with the titles, nanoseconds
//! upwards by tens. The first subject's lines are whole, the second's dashed.

use super::measure::Timing;
use std::fmt::Write;

const WIDTH: f64 = 420.0;
const HEIGHT: f64 = 300.0;
const LEFT: f64 = 60.0;
const TOP: f64 = 50.0;
const NAMES: f64 = 250.0;
const COLOURS: [&str; 8] = [
    "#1b6ca8", "#c1440e", "#2e7d32", "#7b3fa0", "#b8860b", "#00838f", "#ad1457", "#555555",
];

/// A line of a panel: what is timed, and for each size its nanoseconds.
struct Line {
    name: &'static str,
    points: Vec<(f64, [f64; 2])>,
}

/// The lines whose sizes are of one sort.
fn lines_of(timings: &[Timing], sort: &str) -> Vec<Line> {
    let mut lines: Vec<Line> = Vec::new();
    for timing in timings.iter().filter(|timing| timing.name.ends_with(sort)) {
        let point = (timing.size.unwrap_or(0) as f64, timing.nanoseconds);
        match lines.iter_mut().find(|line| line.name == timing.name) {
            Some(line) => line.points.push(point),
            None => lines.push(Line {
                name: timing.name,
                points: vec![point],
            }),
        }
    }
    lines
}

/// A panel's own scales: sizes to the right, tens of nanoseconds upwards.
struct Panel {
    left: f64,
    sizes: [f64; 2],
    tens: [f64; 2],
}

impl Panel {
    fn of(lines: &[Line], left: f64) -> Panel {
        let points = || lines.iter().flat_map(|line| &line.points);
        let sizes = points().map(|point| point.0);
        let tens = points().flat_map(|point| point.1).map(|n| n.max(1.0).log10());
        Panel {
            left,
            sizes: [sizes.clone().fold(f64::MAX, f64::min), sizes.fold(1.0, f64::max)],
            tens: [
                tens.clone().fold(f64::MAX, f64::min).floor(),
                tens.fold(1.0, f64::max).ceil(),
            ],
        }
    }

    fn x(&self, size: f64) -> f64 {
        let [low, high] = self.sizes;
        self.left + (size - low) / (high - low).max(1.0) * WIDTH
    }

    fn y(&self, nanoseconds: f64) -> f64 {
        let [low, high] = self.tens;
        TOP + HEIGHT - (nanoseconds.max(1.0).log10() - low) / (high - low).max(1.0) * HEIGHT
    }

    fn frame(&self, text: &mut String, title: &str, sizes: &[f64]) {
        let _ = writeln!(
            text,
            r#"<text x="{:.0}" y="30" font-weight="bold">{title}</text>"#,
            self.left
        );
        for ten in self.tens[0] as i32..=self.tens[1] as i32 {
            let y = self.y(10f64.powi(ten));
            let (x, end) = (self.left, self.left + WIDTH);
            let _ = writeln!(text, r##"<path d="M{x:.0} {y:.1}H{end:.0}" stroke="#ddd"/>"##);
            let label = 10u64.pow(ten as u32);
            let _ = writeln!(
                text,
                r#"<text x="{:.0}" y="{:.1}" text-anchor="end">{label} ns</text>"#,
                x - 6.0,
                y + 4.0
            );
        }
        for size in sizes {
            let (x, y) = (self.x(*size), TOP + HEIGHT + 16.0);
            let _ = writeln!(
                text,
                r#"<text x="{x:.1}" y="{y:.0}" text-anchor="middle">{size}</text>"#
            );
        }
    }

    fn line(&self, text: &mut String, line: &Line, at: usize, subject: usize) {
        let colour = COLOURS[at % COLOURS.len()];
        let dashes = if subject == 0 { "" } else { r#" stroke-dasharray="5 4""# };
        let points = line.points.iter().map(|(size, nanoseconds)| {
            let nanoseconds = nanoseconds[subject];
            format!("{:.1},{:.1}", self.x(*size), self.y(nanoseconds))
        });
        let points = points.collect::<Vec<_>>().join(" ");
        let _ = writeln!(
            text,
            r#"<polyline points="{points}" fill="none" stroke="{colour}" stroke-width="2"{dashes}><title>{}</title></polyline>"#,
            line.name
        );
    }

    fn legend(&self, text: &mut String, lines: &[Line]) {
        for (at, line) in lines.iter().enumerate() {
            let (x, y) = (self.left + WIDTH + 14.0, TOP + 14.0 + 20.0 * at as f64);
            let colour = COLOURS[at % COLOURS.len()];
            let _ = writeln!(
                text,
                r#"<text x="{x:.0}" y="{y:.0}" fill="{colour}">{}</text>"#,
                line.name
            );
        }
    }
}

/// The picture of two subjects' times.
pub fn plot(names: [&str; 2], timings: &[Timing]) -> String {
    let panel = WIDTH + LEFT + NAMES;
    let (width, height) = (2.0 * panel + 20.0, TOP + HEIGHT + 50.0);
    let mut text = format!(
        r#"<svg xmlns="http://www.w3.org/2000/svg" width="{width:.0}" height="{height:.0}" font-family="sans-serif" font-size="12">"#
    );
    text += "\n<rect width=\"100%\" height=\"100%\" fill=\"white\"/>\n";
    for (at, sort) in ["by cap", "by titles"].into_iter().enumerate() {
        let lines = lines_of(timings, sort);
        let scales = Panel::of(&lines, LEFT + at as f64 * panel);
        let mut sizes: Vec<f64> = lines.iter().flat_map(|line| line.points.iter().map(|p| p.0)).collect();
        sizes.sort_by(f64::total_cmp);
        sizes.dedup();
        scales.frame(&mut text, &format!("Time {sort}"), &sizes);
        for (at, line) in lines.iter().enumerate() {
            scales.line(&mut text, line, at, 0);
            scales.line(&mut text, line, at, 1);
        }
        scales.legend(&mut text, &lines);
    }
    let [first, second] = names;
    let _ = writeln!(
        text,
        r#"<text x="{LEFT}" y="{:.0}">{first} whole, {second} dashed</text>"#,
        height - 10.0
    );
    text + "</svg>\n"
}
