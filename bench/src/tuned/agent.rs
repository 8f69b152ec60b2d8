//! The agent that callers lend: numbers of a fixed size, changed in place.

use crate::agent_row::{self, AgentRow, ABSENT, OPEN, STEADY, VERSION};
use crate::limits::*;

#[repr(C)]
#[derive(Clone, Copy, Debug, PartialEq, Eq)]
pub struct Title {
    pub mode: u64,
    pub kind: u64,
    pub opened: u64,
    pub length: u64,
    pub floor: u64,
    pub cap: u64,
    pub count: u64,
    pub mark: u64,
    pub last: u64,
    pub tuned: u64,
    pub ends: [u64; COUNTS],
    pub dropped: [u64; LANES],
    pub owed: [u64; LANES],
}

#[repr(C)]
#[derive(Clone, Debug, PartialEq, Eq)]
pub struct Agent {
    pub version: u64,
    pub sequence: u64,
    pub pool: u64,
    pub last: u64,
    pub titles: [Title; TITLES],
}

const BLANK: Title = Title {
    mode: ABSENT,
    kind: 0,
    opened: 0,
    length: 0,
    floor: 0,
    cap: 0,
    count: 0,
    mark: 0,
    last: 0,
    tuned: 0,
    ends: [0; COUNTS],
    dropped: [0; LANES],
    owed: [0; LANES],
};

impl Title {
    /// A title that opens at a time.
    pub fn opened(kind: u64, time: u64, [length, floor, cap, count]: [u64; 4]) -> Title {
        Title {
            mode: OPEN,
            kind,
            opened: time,
            length,
            floor,
            cap,
            count,
            last: time,
            tuned: time,
            ..BLANK
        }
    }

    #[inline]
    pub fn is_steady(&self) -> bool {
        self.kind == STEADY
    }

    /// The ruling count, 0 where the title isn't open.
    #[inline]
    pub fn ruling(&self) -> u64 {
        if self.mode == OPEN {
            self.count
        } else {
            0
        }
    }
}

impl Agent {
    /// A pool without titles.
    pub fn fresh(pool: u64) -> Agent {
        Agent {
            version: VERSION,
            sequence: 0,
            pool,
            last: 0,
            titles: [BLANK; TITLES],
        }
    }

    pub fn from_row(row: &AgentRow) -> Agent {
        let mut agent = Agent::fresh(row[agent_row::POOL_AT]);
        agent.version = row[agent_row::VERSION_AT];
        agent.sequence = row[agent_row::SEQUENCE_AT];
        agent.last = row[agent_row::LAST_AT];
        let titles = row[agent_row::TITLES_AT..].chunks_exact(agent_row::TITLE_SIZE);
        for (title, numbers) in agent.titles.iter_mut().zip(titles) {
            *title = Title::from_numbers(numbers);
        }
        agent
    }

    pub fn row(&self) -> AgentRow {
        let mut row = agent_row::fresh(self.pool);
        row[agent_row::VERSION_AT] = self.version;
        row[agent_row::SEQUENCE_AT] = self.sequence;
        row[agent_row::LAST_AT] = self.last;
        let titles = row[agent_row::TITLES_AT..].chunks_exact_mut(agent_row::TITLE_SIZE);
        for (title, numbers) in self.titles.iter().zip(titles) {
            title.write_numbers(numbers);
        }
        row
    }
}

impl Title {
    fn from_numbers(numbers: &[u64]) -> Title {
        let mut title = Title {
            mode: numbers[agent_row::MODE],
            kind: numbers[agent_row::KIND],
            opened: numbers[agent_row::OPENED],
            length: numbers[agent_row::LENGTH],
            floor: numbers[agent_row::FLOOR],
            cap: numbers[agent_row::CAP],
            count: numbers[agent_row::COUNT],
            mark: numbers[agent_row::MARK],
            last: numbers[agent_row::TITLE_LAST],
            tuned: numbers[agent_row::TUNED],
            ..BLANK
        };
        title
            .ends
            .copy_from_slice(&numbers[agent_row::ENDS..agent_row::DROPPED]);
        title
            .dropped
            .copy_from_slice(&numbers[agent_row::DROPPED..agent_row::OWED]);
        title.owed.copy_from_slice(&numbers[agent_row::OWED..]);
        title
    }

    fn write_numbers(&self, numbers: &mut [u64]) {
        numbers[agent_row::MODE] = self.mode;
        numbers[agent_row::KIND] = self.kind;
        numbers[agent_row::OPENED] = self.opened;
        numbers[agent_row::LENGTH] = self.length;
        numbers[agent_row::FLOOR] = self.floor;
        numbers[agent_row::CAP] = self.cap;
        numbers[agent_row::COUNT] = self.count;
        numbers[agent_row::MARK] = self.mark;
        numbers[agent_row::TITLE_LAST] = self.last;
        numbers[agent_row::TUNED] = self.tuned;
        numbers[agent_row::ENDS..agent_row::DROPPED].copy_from_slice(&self.ends);
        numbers[agent_row::DROPPED..agent_row::OWED].copy_from_slice(&self.dropped);
        numbers[agent_row::OWED..].copy_from_slice(&self.owed);
    }
}
