//! The project's stored inputs and outputs hold for every subject.

use bench::model::Model;
use bench::replay::{console, programs};
use bench::subject::{PlayedLog, Subject};
use bench::tuned::Tuned;
use std::fs;
use std::path::PathBuf;

fn project(path: &str) -> PathBuf {
    PathBuf::from(env!("CARGO_MANIFEST_DIR")).join("..").join(path)
}

fn bytes(path: &str) -> Vec<u8> {
    fs::read(project(path)).unwrap_or_else(|why| panic!("{path}: {why}"))
}

fn text(path: &str) -> String {
    String::from_utf8(bytes(path)).unwrap_or_else(|why| panic!("{path}: {why}"))
}

fn console_holds<S: Subject>(subject: &mut S) {
    for case in [
        "crates/console",
        "checks/cases/console/planner",
        "checks/cases/console/refusals",
    ] {
        let held = console::replay(
            subject,
            &text(&format!("{case}/stdin")),
            &text(&format!("{case}/stdout")),
        );
        match held {
            Ok(answers) => assert!(answers > 40, "{case}: {answers} answers"),
            Err(why) => panic!("{case}: {why}"),
        }
    }
}

fn listing_holds<S: Subject>(subject: &mut S) {
    for case in ["crates/listing", "checks/cases/listing/cut"] {
        let listed = programs::listing(subject, &bytes(&format!("{case}/stdin")));
        assert_eq!(listed, text(&format!("{case}/stdout")), "{case}");
    }
}

fn played<'a>(case: &str, log: &'a [u8]) -> PlayedLog<'a> {
    let words = text(&format!("{case}/args"));
    let numbers: Vec<u64> = words
        .lines()
        .take(2)
        .map(|word| word.parse().expect("a number"))
        .collect();
    PlayedLog {
        pool: numbers[0],
        bytes: log,
        title: numbers[1],
    }
}

fn waits_hold<S: Subject>(subject: &mut S) {
    for (case, log) in [
        ("crates/waits", "evening.log"),
        ("checks/cases/waits/skip", "skipping.log"),
    ] {
        let log = bytes(&format!("{case}/data/{log}"));
        let arrivals = text(&format!("{case}/data/arrivals.txt"));
        let report = programs::waits(subject, played(case, &log), &arrivals);
        assert_eq!(report, text(&format!("{case}/stdout")), "{case}");
    }
}

fn air_holds<S: Subject>(subject: &mut S) {
    for case in ["crates/air", "checks/cases/air/lost"] {
        let log = bytes(&format!("{case}/data/evening.log"));
        let record = programs::record_of(&text(&format!("{case}/data/record.txt")));
        let told = programs::air(subject, played(case, &log), &record);
        assert_eq!(told, text(&format!("{case}/stdout")), "{case}");
    }
}

fn salvage_holds<S: Subject>(subject: &mut S) {
    let (taken, told) = programs::salvage(subject, &bytes("crates/salvage/stdin"));
    assert!(taken == bytes("crates/salvage/stdout"), "the taken notices differ");
    let stored = text("crates/salvage/stderr");
    let stretches = stored.lines().filter(|line| !line.starts_with("sequence"));
    assert!(told.lines().eq(stretches), "the stretches differ");
}

fn all_holds<S: Subject>(mut subject: S) {
    console_holds(&mut subject);
    listing_holds(&mut subject);
    waits_hold(&mut subject);
    air_holds(&mut subject);
    salvage_holds(&mut subject);
}

#[test]
fn the_model_says_what_is_stored() {
    all_holds(Model::new());
}

#[test]
fn the_tuned_version_says_what_is_stored() {
    all_holds(Tuned::new());
}

#[cfg(feature = "library")]
#[test]
fn the_library_says_what_is_stored() {
    all_holds(bench::library::Library::new());
}
