//! A modulator and a box, ms by ms, without clock, socket or process: whatever changes, the box plays through, and one that does not mind the
//! order of the notices freezes.

use crate::follower::LEAD;
use crate::library::{written, Notice, OUT_OF_TURN};
use crate::modulator::{Modulator, CAROUSEL, SNAPSHOT};
use crate::settop::{SetTop, Wish};
use crate::wire::LANE_HEAD;

const SIZE: u64 = 12_345;
const POOL: u64 = 8;

/// Notices, each with the time at which it is told, and one that a later one overtakes.
struct Evening {
    notices: Vec<(u64, Notice)>,
    overtaken: Option<u64>,
}

fn wish(ask: u64, titles: &[u64]) -> Wish {
    Wish { pool: POOL, ask, titles: titles.to_vec(), size: SIZE, loss: 0.0, seed: 1, old: false }
}

fn film() -> Vec<u8> {
    (0..SIZE).map(|place| (place * 7 % 251) as u8).collect()
}

impl Evening {
    fn of(events: &[[u64; 8]]) -> Evening {
        let notices = events.iter().map(|fields| (fields[3] - LEAD, written(*fields))).collect();
        Evening { notices, overtaken: None }
    }

    /// What is sent on the notices' port in a ms.
    fn told(&self, modulator: &mut Modulator, clock: u64) -> Vec<Vec<u8>> {
        let due = self.notices.iter().filter(|(at, _)| *at == clock).map(|(_, notice)| notice.clone());
        let mut told = modulator.tell(&due.collect::<Vec<_>>(), clock).expect("told");
        if clock % CAROUSEL == 0 {
            told.push(modulator.carousel(clock));
        }
        if clock % SNAPSHOT == 0 {
            told.push(modulator.snapshot(clock).expect("saved"));
        }
        told
    }

    /// A box that is switched on at a time, and what it showed by the end.
    fn played(&self, wish: Wish, on: u64) -> (SetTop, Vec<u8>) {
        let (film, mut shown) = (film(), Vec::new());
        let (mut modulator, mut settop) =
            (Modulator::new(POOL, SIZE).expect("a pool"), SetTop::new(wish).expect("a pool"));
        self.overtaken.into_iter().for_each(|sequence| modulator.withhold(sequence));
        for clock in 0..4_000 {
            let told = self.told(&mut modulator, clock);
            told.iter().filter(|_| clock >= on).for_each(|datagram| settop.hear(datagram, clock));
            settop.settle(clock);
            while let Some(bytes) = settop.show(clock) {
                shown.extend(bytes);
            }
            while modulator.next_moment().is_some_and(|moment| moment <= clock) {
                for part in modulator.at(clock) {
                    let mut datagram = Vec::new();
                    part.head.put(&mut datagram);
                    datagram.extend(&film[part.bytes.start as usize..part.bytes.end as usize]);
                    if let Some(head) = settop.judge(part.port, &datagram, clock) {
                        settop.keep(part.port, &head, &datagram[LANE_HEAD..], clock);
                    }
                }
            }
        }
        (settop, shown)
    }
}

/// Two films of 12 cells of 20 ms and more, a skip-forward title, and all that may happen to them.
fn changing() -> Evening {
    Evening::of(&[
        [1, 1, 0, 1_000, 240, 2, 4, 4],
        [1, 2, 1, 1_000, 240, 2, 4, 2],
        [2, 3, 0, 1_240, 0, 0, 0, 2],
        [4, 4, 1, 1_320, 0, 0, 0, 0],
        [5, 5, 1, 1_400, 0, 0, 0, 0],
        [2, 6, 1, 1_560, 0, 0, 0, 3],
        [6, 7, 2, 1_650, 256, 0, 0, 3],
        [3, 8, 0, 1_720, 0, 0, 0, 0],
        [3, 9, 2, 1_970, 0, 0, 0, 0],
    ])
}

/// A lane is raised and dropped, both told at once, and another film opens.
fn fluttering() -> Evening {
    let mut evening = Evening::of(&[
        [1, 1, 0, 1_000, 240, 2, 4, 3],
        [2, 2, 0, 1_400, 0, 0, 0, 4],
        [2, 3, 0, 1_480, 0, 0, 0, 3],
        [1, 4, 1, 1_640, 240, 2, 4, 4],
    ]);
    evening.notices[2].0 = evening.notices[1].0;
    evening.overtaken = Some(2);
    evening
}

#[test]
fn a_box_plays_through_whatever_changes() {
    for ask in (700..1_450).step_by(29) {
        let (settop, shown) = changing().played(wish(ask, &[0, 1]), 0);
        let play = settop.play.as_ref().expect("admitted");
        assert!(settop.is_over() && play.missing.is_empty() && play.late.is_empty(), "asked at {ask}");
        assert!(shown == film() && settop.refused.is_empty());
    }
}

#[test]
fn a_box_plays_a_skip_forward_title() {
    let (settop, shown) = changing().played(wish(1_600, &[2, 0]), 0);
    assert_eq!(settop.play.expect("admitted").title, 2);
    assert!(shown == film());
}

#[test]
fn a_box_that_comes_late_catches_up_by_a_snapshot() {
    let (settop, shown) = changing().played(wish(1_700, &[1]), 1_700);
    assert_eq!((settop.snapshots, settop.sequence()), (1, 9));
    assert!(shown == film());
}

#[test]
fn a_box_that_minds_the_order_waits_and_plays_through() {
    for ask in (900..1_700).step_by(31) {
        let (settop, shown) = fluttering().played(wish(ask, &[0]), 0);
        let refused: Vec<(u64, u8, bool)> =
            settop.refused.iter().map(|refused| (refused.sequence, refused.answer, refused.mended.is_some())).collect();
        assert_eq!(refused, [(3, OUT_OF_TURN, true)]);
        assert!(shown == film(), "asked at {ask}");
    }
}

#[test]
fn one_that_does_not_freezes() {
    let old = Wish { old: true, ..wish(1_500, &[0]) };
    let (settop, shown) = fluttering().played(old, 0);
    assert_eq!(settop.lost(), [(3, 6)]);
    let play = settop.play.expect("admitted");
    assert_eq!(play.count, 4);
    assert!(!play.missing.is_empty() && play.foreign > 0 && shown != film());
}

#[test]
fn lost_datagrams_are_missed_cells() {
    let (settop, shown) = changing().played(Wish { loss: 20.0, ..wish(1_200, &[0]) }, 0);
    let play = settop.play.expect("admitted");
    assert!(!play.missing.is_empty() && shown != film() && shown.len() as u64 == SIZE);
    let seen = |cell: &u64| play.record.as_flattened().contains(&(*cell as u16));
    assert!((0..play.grid.film).all(|cell| seen(&cell) != play.missing.contains(&cell)));
}
