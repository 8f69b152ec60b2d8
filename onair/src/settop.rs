//! A box: follows the notices, begins at the next admission, plays, and says how it went. It sees no clock and no socket:
//! both are handed to it.

use crate::follower::{Follower, Heard};
use crate::grid::Grid;
use crate::library::Notice;
use crate::play::{Play, Seen};
use crate::random::Random;
use crate::wire::{self, LaneHead, Told};

/// How long before a tick, in ms, a box settles what it takes then, and tunes to the lanes that bring it.
pub const TUNE: u64 = 250;

/// What a box is started with.
#[derive(Clone, Debug)]
pub struct Wish {
    pub pool: u64,
    /// When its viewer asks, and for which titles: the first of them that is open.
    pub ask: u64,
    pub titles: Vec<u64>,
    /// Bytes of the film.
    pub size: u64,
    /// Of a hundred datagrams how many are thrown away, and the seed that says which.
    pub loss: f64,
    pub seed: u64,
    pub old: bool,
}

/// A notice that was refused, and what came of it.
#[derive(Clone, Debug, PartialEq, Eq)]
pub struct Refused {
    pub sequence: u64,
    pub answer: u8,
    pub at: u64,
    /// When the missing ones had come, and whether a snapshot brought them.
    pub mended: Option<(u64, bool)>,
}

pub struct SetTop {
    wish: Wish,
    follower: Follower,
    random: Random,
    /// From when on it waits for an admission of the title that it has chosen, in ms: TUNE behind the question, or behind the moment
    /// at which it had heard enough, or when a title that it waited for was closed.
    pub ready: Option<u64>,
    chosen: Option<u64>,
    /// The moment, in ms, that is looked at for an admission.
    looked: u64,
    /// Admissions that went by while it could not tell whether it had heard everything.
    pub passed: u64,
    pub play: Option<Play>,
    pub refused: Vec<Refused>,
    pub snapshots: u64,
    /// The first sequence that it took or loaded, and when.
    pub began: Option<(u64, u64)>,
    pub lost_on_purpose: u64,
}

impl SetTop {
    pub fn new(wish: Wish) -> Result<SetTop, u8> {
        Ok(SetTop {
            follower: Follower::fresh(wish.pool, wish.old)?,
            random: Random::new(wish.seed),
            wish,
            ready: None,
            chosen: None,
            looked: 0,
            passed: 0,
            play: None,
            refused: Vec::new(),
            snapshots: 0,
            began: None,
            lost_on_purpose: 0,
        })
    }

    pub fn sequence(&self) -> u64 {
        self.follower.sequence()
    }

    /// Of an agent of old, notices that it was refused at their time.
    pub fn lost(&self) -> &[(u64, u8)] {
        &self.follower.lost
    }

    pub fn is_over(&self) -> bool {
        self.play.as_ref().is_some_and(Play::is_over)
    }

    fn is_lost(&mut self) -> bool {
        let lost = self.wish.loss > 0.0 && self.random.chance(self.wish.loss / 100.0);
        self.lost_on_purpose += u64::from(lost);
        lost
    }

    // --- notices ---

    /// A datagram of the notices' port.
    pub fn hear(&mut self, bytes: &[u8], clock: u64) {
        if self.is_lost() {
            return;
        }
        let Some((beat, told)) = wire::told(bytes, self.wish.pool as usize) else {
            return;
        };
        match &told {
            Told::Notices(notices) => notices.iter().for_each(|notice| {
                let heard = self.follower.hear(notice);
                self.note(heard, notice.sequence, clock);
            }),
            Told::Snapshot { .. } => {
                if self.follower.load(&told) {
                    self.snapshots += 1;
                    self.mend(clock, true);
                }
            }
        }
        self.follower.beat(beat);
    }

    fn note(&mut self, heard: Heard, sequence: u64, clock: u64) {
        if heard == Heard::Taken {
            self.mend(clock, false);
        }
        if let Heard::Refused(answer) = heard {
            // the carousel brings it again and again until it is mended
            let known = self.refused.iter().any(|refused| refused.sequence == sequence && refused.mended.is_none());
            if !known {
                self.refused.push(Refused { sequence, answer, at: clock, mended: None });
            }
        }
    }

    /// What was out of turn, and has been taken since.
    fn mend(&mut self, clock: u64, by_snapshot: bool) {
        let sequence = self.follower.sequence();
        self.began.get_or_insert((sequence, clock));
        for refused in self.refused.iter_mut().filter(|refused| refused.mended.is_none()) {
            if refused.sequence <= sequence {
                refused.mended = Some((clock, by_snapshot));
            }
        }
    }

    // --- time passes ---

    /// Settles what is wanted of the lanes up to TUNE ms from now, as far as every event is known.
    pub fn settle(&mut self, clock: u64) {
        let until = (clock + TUNE).min(self.follower.covered());
        if self.play.is_none() {
            self.wait(clock, until);
        }
        if let Some(play) = &mut self.play {
            play.look_ahead(&mut self.follower, until);
        }
    }

    /// The next cell that is to be shown by now.
    pub fn show(&mut self, clock: u64) -> Option<Vec<u8>> {
        self.play.as_mut()?.show(clock)
    }

    fn wait(&mut self, clock: u64, until: u64) {
        let known = self.wish.old || (self.began.is_some() && self.follower.covered() >= clock);
        if clock < self.wish.ask || !known {
            self.follower.advance(clock.min(self.follower.covered()));
            return;
        }
        if self.ready.is_none() {
            // one that had heard everything before it was asked is ready by when it was asked
            let late = self.began.is_some_and(|(_, at)| at > self.wish.ask);
            self.looked = TUNE + if late { clock } else { self.wish.ask };
            self.ready = Some(self.looked);
        }
        self.find_admission(clock, until);
    }

    /// From the moment `looked` on, the first admission of the chosen title.
    fn find_admission(&mut self, clock: u64, until: u64) {
        while self.looked <= until && self.play.is_none() {
            self.follower.advance(self.looked);
            self.choose();
            let Some(opening) = self.chosen.and_then(|title| self.follower.opening(title)).cloned() else {
                self.looked += 1;
                continue;
            };
            let grid = Grid::of(&opening, self.wish.size);
            let tick = grid.from(self.looked);
            if grid.time(tick) > self.looked {
                // an event may come before that tick
                let event = self.follower.next_event().unwrap_or(u64::MAX).max(self.looked + 1);
                self.looked = grid.time(tick).min(event);
            } else {
                self.try_tick(&opening, grid, tick, clock);
            }
        }
    }

    /// Begins at a tick that is an admission and not yet past.
    fn try_tick(&mut self, opening: &Notice, grid: Grid, tick: u64, clock: u64) {
        let standing = self.follower.asked.status(opening.title, self.looked);
        let admitted = standing.ok().filter(|standing| grid.admits(opening, standing, tick));
        match admitted {
            Some(standing) if self.looked >= clock => {
                self.play = Play::new(opening, grid, tick, standing.count).ok();
            }
            Some(_) => self.passed += 1,
            None => {}
        }
        self.looked += 1;
    }

    /// The first wished title that is open, unless one is chosen that still is.
    fn choose(&mut self) {
        let time = self.looked.max(self.follower.asked.last());
        let is_open = |title: &u64| self.follower.asked.status(*title, time).is_ok_and(|standing| standing.count > 0);
        if !self.chosen.as_ref().is_some_and(is_open) {
            self.chosen = self.wish.titles.iter().copied().find(is_open);
            self.ready = Some(self.looked);
        }
    }

    // --- lanes ---

    /// The lanes of the pool that it is to be tuned to.
    pub fn ports(&self) -> Vec<usize> {
        self.play.as_ref().map_or(Vec::new(), Play::ports)
    }

    /// Whether a datagram that came on a lane of the pool is to be kept, by its beginning.
    pub fn judge(&mut self, port: usize, head: &[u8], clock: u64) -> Option<LaneHead> {
        let head = LaneHead::of(head)?;
        let seen = self.play.as_ref()?.judge(port, &head, clock);
        if seen == Seen::Taken && self.is_lost() {
            return None;
        }
        let play = self.play.as_mut()?;
        play.foreign += u64::from(seen == Seen::Foreign);
        (seen == Seen::Taken).then_some(head)
    }

    pub fn keep(&mut self, port: usize, head: &LaneHead, bytes: &[u8], clock: u64) {
        if let Some(play) = &mut self.play {
            play.keep(port, head, bytes, clock);
        }
    }
}
