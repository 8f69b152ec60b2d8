//! The worked cases of 01 as 02's requests leave them, for every subject.

use bench::agent_row::SNAPSHOT;
use bench::model::Model;
use bench::refusals::*;
use bench::subject::{Film, Sharers, Start, Subject};
use bench::tuned::Tuned;

const CASE: Film = Film {
    length: 12,
    floor: 2,
    cap: 4,
    count: 4,
};

fn opened<S: Subject>(subject: &mut S, count: u64) {
    assert_eq!(subject.fresh(8), DONE);
    assert_eq!(subject.open(0, 0, Film { count, ..CASE }), DONE);
}

/// What a lane shows from a time on, until it is released.
fn sent<S: Subject>(subject: &mut S, lane: u64, from: u64) -> Vec<u64> {
    let mut cells = Vec::new();
    for time in from.. {
        match subject.lane(0, lane, time) {
            (DONE, cell) => cells.push(cell),
            (number, _) => {
                assert_eq!(number, NOT_THERE);
                return cells;
            }
        }
    }
    unreachable!("a dropped lane is released")
}

fn lanes_and_plan<S: Subject>(subject: &mut S) {
    opened(subject, 4);
    let shown = |subject: &mut S, lane| -> Vec<u64> { (0..8).map(|t| subject.lane(0, lane, t).1).collect() };
    assert_eq!(shown(subject, 3), [2, 0, 14, 0, 2, 0, 6, 0]);
    assert_eq!(shown(subject, 2), [12, 13, 0, 1, 4, 5, 0, 1]);
    let mut row = [7; 17];
    let start = Start {
        floor: 2,
        cap: 4,
        count: 4,
        arrival: 0,
    };
    assert_eq!(subject.plan(start, &mut row), DONE);
    assert_eq!(row, [0, 1, 0, 3, 0, 1, 2, 3, 4, 5, 6, 7, 0, 1, 2, 65535, 7]);
}

fn drops<S: Subject>(subject: &mut S) {
    opened(subject, 3);
    assert_eq!(subject.change(0, 2, 2), TOO_SOON);
    assert_eq!(subject.change(0, 4, 2), DONE);
    assert_eq!(sent(subject, 2, 4), [4, 5]);
    opened(subject, 4);
    assert_eq!(subject.change(0, 4, 3), DONE);
    assert_eq!(subject.change(0, 6, 4), TOO_SOON);
    assert_eq!(sent(subject, 3, 4), [2, 6]);
    opened(subject, 4);
    assert_eq!(subject.change(0, 8, 3), DONE);
    assert_eq!(sent(subject, 3, 8), [2]);
    assert_eq!(subject.held(9), (DONE, 3));
}

fn wrong_counts<S: Subject>(subject: &mut S) {
    opened(subject, 4);
    assert_eq!(subject.change(0, 4, 4), UNCHANGED);
    assert_eq!(subject.change(0, 4, 5), ABOVE_CAP);
    assert_eq!(subject.change(0, 4, 11), ABOVE_CAP);
    assert_eq!(subject.change(0, 4, 13), OUTSIDE_LIMITS);
}

/// A lane below the floor owes one tick only to the boxes of a smaller count.
fn owed_to_the_smaller_count<S: Subject>(subject: &mut S) {
    subject.fresh(8);
    let film = Film {
        length: 30,
        floor: 4,
        cap: 5,
        count: 4,
    };
    assert_eq!(subject.open(0, 0, film), DONE);
    assert_eq!(subject.change(0, 4, 5), DONE);
    assert_eq!(subject.close(0, 6), DONE);
    assert_eq!(
        sent(subject, 3, 6),
        [20, 21, 22, 23, 24, 25, 26, 27, 28, 29, 14, 15, 16, 17, 18]
    );
}

fn shared<S: Subject>(subject: &mut S, pool: u64, rates: [u32; 2], film: [u32; 3]) -> Result<[u32; 2], u8> {
    let [length, floor, cap] = film.map(|n| [n; 2]);
    let titles = Sharers {
        rates: &rates,
        lengths: &length,
        floors: &floor,
        caps: &cap,
    };
    let mut counts = [0; 2];
    match subject.share(pool, titles, &mut counts) {
        DONE => Ok(counts),
        number => Err(number),
    }
}

fn sharings<S: Subject>(subject: &mut S) {
    assert_eq!(shared(subject, 6, [4, 9], [12, 2, 4]), Ok([2, 4]));
    assert_eq!(shared(subject, 4, [1, 2], [210, 2, 10]), Ok([2, 2]));
    assert_eq!(shared(subject, 5, [1, 2], [210, 2, 10]), Ok([2, 3]));
    assert_eq!(shared(subject, 5, [1, 1], [210, 2, 10]), Ok([3, 2]));
    assert_eq!(shared(subject, 3, [1, 2], [210, 2, 10]), Err(NO_LANES));
}

fn notice_of_case_12<S: Subject>(subject: &mut S) {
    let mut room = [9; 31];
    assert_eq!(subject.write(&[2, 2, 0, 4, 0, 0, 0, 3], &mut room), (DONE, 30));
    let bytes = [
        1, 0, 1, 2, 2, 0, 4, 0, 0, 0, 2, 3, 0, 1, 0, 4, 0, 8, 0, 0, 0, 0, 0, 0, 0, 4, 8, 0, 1, 3,
    ];
    assert_eq!((&room[..30], room[30]), (&bytes[..], 9));
    let mut fields = [0; 8];
    assert_eq!(subject.read(&room[..30], &mut fields), DONE);
    assert_eq!(fields, [2, 2, 0, 4, 0, 0, 0, 3]);
    assert_eq!(subject.read(&room[..29], &mut fields), MALFORMED);
    assert_eq!(subject.read(&room, &mut fields), MALFORMED);
    assert_eq!(subject.write(&[2, 2, 0, 4, 0, 0, 0, 3], &mut room[..29]).0, WRONG_ROWS);
}

/// What was saved is loaded as the same agent; bytes that are cut, damaged or of another length load as none.
fn snapshots<S: Subject>(subject: &mut S) {
    opened(subject, 4);
    assert_eq!(subject.change(0, 4, 3), DONE);
    let saved = subject.agent();
    let mut room = [9; SNAPSHOT + 1];
    assert_eq!(subject.save(&mut room[..SNAPSHOT - 1]), WRONG_ROWS);
    assert_eq!((subject.save(&mut room), room[SNAPSHOT]), (DONE, 9));
    assert_eq!(subject.fresh(9), DONE);
    let other = subject.agent();
    for place in (0..SNAPSHOT).step_by(61) {
        room[place] ^= 4;
        assert_eq!(subject.load(&room[..SNAPSHOT]), MALFORMED, "byte {place}");
        room[place] ^= 4;
    }
    assert_eq!(subject.load(&room), MALFORMED);
    assert_eq!(subject.load(&room[..SNAPSHOT - 1]), MALFORMED);
    assert_eq!(subject.load(&[]), MALFORMED);
    assert!(subject.agent() == other, "a refused load changes nothing");
    assert_eq!(subject.load(&room[..SNAPSHOT]), DONE);
    assert!(subject.agent() == saved, "the agent is the one that was saved");
}

fn all_hold<S: Subject>(mut subject: S) {
    lanes_and_plan(&mut subject);
    drops(&mut subject);
    wrong_counts(&mut subject);
    owed_to_the_smaller_count(&mut subject);
    sharings(&mut subject);
    notice_of_case_12(&mut subject);
    snapshots(&mut subject);
}

#[test]
fn the_model_works_the_cases() {
    all_hold(Model::new());
}

#[test]
fn the_tuned_version_works_the_cases() {
    all_hold(Tuned::new());
}

#[cfg(feature = "library")]
#[test]
fn the_library_works_the_cases() {
    all_hold(bench::library::Library::new());
}
