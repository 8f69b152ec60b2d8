//! The limits of every stored number of an agent's row (01, "Numbers that calls give back"): upper limits for every slot,
//! lower limits and the order of floor, count and cap for a title that is there, and no title in a pool of 0.

use crate::agent_row::{self, AgentRow, ABSENT, CLOSING, STEADY, VERSION};
use crate::limits::{
    ASKED_MAX, COUNT_MAX, FLOOR_MAX, FLOOR_MIN, LENGTH_MAX, LENGTH_MIN, POOL_MAX, POOL_MIN, SEQUENCE_MAX, STEADY_MAX,
    TITLES,
};

/// The largest number that may stand in a place of a title.
fn most(place: usize, steady: bool) -> u64 {
    match place {
        agent_row::MODE => CLOSING,
        agent_row::KIND => STEADY,
        agent_row::MARK => 1,
        agent_row::LENGTH => LENGTH_MAX,
        agent_row::FLOOR if steady => STEADY_MAX,
        agent_row::FLOOR => FLOOR_MAX,
        agent_row::CAP | agent_row::COUNT => COUNT_MAX,
        _ => ASKED_MAX,
    }
}

/// What holds besides for a title that is there.
fn in_order(title: &[u64]) -> bool {
    let (floor, cap, count) = (title[agent_row::FLOOR], title[agent_row::CAP], title[agent_row::COUNT]);
    title[agent_row::LENGTH] >= LENGTH_MIN
        && floor >= FLOOR_MIN
        && floor <= count
        && count <= cap
        && (title[agent_row::KIND] != STEADY || floor == cap)
}

fn title_in_limits(pool: u64, title: &[u64]) -> bool {
    let steady = title[agent_row::KIND] == STEADY;
    let numbers = (0..agent_row::TITLE_SIZE).all(|place| title[place] <= most(place, steady));
    let there = title[agent_row::MODE] != ABSENT;
    numbers && (!there || (pool >= POOL_MIN && in_order(title)))
}

pub fn row_in_limits(row: &AgentRow) -> bool {
    let pool = row[agent_row::POOL_AT];
    row[agent_row::VERSION_AT] == VERSION
        && row[agent_row::SEQUENCE_AT] <= SEQUENCE_MAX
        && pool <= POOL_MAX
        && row[agent_row::LAST_AT] <= ASKED_MAX
        && (0..TITLES).all(|id| {
            let from = agent_row::place(id, 0);
            title_in_limits(pool, &row[from..from + agent_row::TITLE_SIZE])
        })
}
