//! An agent as bytes. The sum takes eight bytes at a time, each from a table of its own.

use super::agent::Agent;
use crate::agent_row::{AgentRow, NUMBERS, ROW, SNAPSHOT, VERSION};
use crate::refusals::*;

const POLYNOMIAL: u32 = 0x82f6_3b78;

/// What a byte leaves in the register, with so many bytes behind it.
const TABLES: [[u32; 256]; 8] = tables();

const fn tables() -> [[u32; 256]; 8] {
    let mut tables = [[0; 256]; 8];
    let mut byte = 0;
    while byte < 256 {
        let mut register = byte as u32;
        let mut bit = 0;
        while bit < 8 {
            register = (register >> 1) ^ (POLYNOMIAL & (register & 1).wrapping_neg());
            bit += 1;
        }
        tables[0][byte] = register;
        byte += 1;
    }
    let mut behind = 1;
    while behind < 8 {
        let mut byte = 0;
        while byte < 256 {
            let before = tables[behind - 1][byte];
            tables[behind][byte] = (before >> 8) ^ tables[0][(before & 255) as usize];
            byte += 1;
        }
        behind += 1;
    }
    tables
}

/// The register behind eight bytes.
#[inline]
fn with_eight(register: u32, eight: [u8; 8]) -> u32 {
    let word = u64::from_le_bytes(eight) ^ u64::from(register);
    let byte = |at: usize| (word >> (8 * at)) as usize & 255;
    (0..8).fold(0, |all, at| all ^ TABLES[7 - at][byte(at)])
}

/// CRC-32C of rows of eight bytes.
fn sum(numbers: &[u8]) -> u32 {
    let (eights, _) = numbers.as_chunks();
    !eights
        .iter()
        .fold(u32::MAX, |register, eight| with_eight(register, *eight))
}

/// 10 1.
pub fn save(agent: &Agent, room: &mut [u8]) -> u8 {
    let Some((room, _)) = room.split_first_chunk_mut::<SNAPSHOT>() else {
        return WRONG_ROWS;
    };
    if !agent.in_limits() {
        return OUTSIDE_LIMITS;
    }
    let (numbers, told) = room.split_at_mut(NUMBERS);
    let (eights, _) = numbers.as_chunks_mut();
    for (eight, number) in eights.iter_mut().zip(agent.row()) {
        *eight = number.to_be_bytes();
    }
    told.copy_from_slice(&sum(numbers).to_be_bytes());
    DONE
}

/// 11 1.
pub fn load(agent: &mut Agent, bytes: &[u8]) -> u8 {
    let Some((numbers, told)) = bytes.split_last_chunk().filter(|(numbers, _)| numbers.len() == NUMBERS) else {
        return MALFORMED;
    };
    let mut row: AgentRow = [0; ROW];
    let (eights, _) = numbers.as_chunks();
    for (number, eight) in row.iter_mut().zip(eights) {
        *number = u64::from_be_bytes(*eight);
    }
    let loaded = Agent::from_row(&row);
    if loaded.version != VERSION || u32::from_be_bytes(*told) != sum(numbers) {
        return MALFORMED;
    }
    if !loaded.in_limits() {
        return OUTSIDE_LIMITS;
    }
    *agent = loaded;
    DONE
}

#[cfg(test)]
mod tests {
    use super::sum;

    /// RFC 3720's vectors, whose lengths are eights.
    #[test]
    fn the_sum_is_the_published_one() {
        assert_eq!(sum(&[0; 32]), 0x8a91_36aa);
        assert_eq!(sum(&[0xff; 32]), 0x62a8_ab43);
        assert_eq!(sum(&(0..32).collect::<Vec<u8>>()), 0x46dd_794e);
        assert_eq!(sum(&(0..32).rev().collect::<Vec<u8>>()), 0x113f_db5c);
    }
}
