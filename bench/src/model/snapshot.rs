//! An agent as bytes: its numbers, the layout's version first, big-endian, and behind them the CRC-32C of those bytes.

use super::within::row_in_limits;
use crate::agent_row::{AgentRow, NUMBERS, SNAPSHOT, VERSION, VERSION_AT};
use crate::refusals::*;

/// Castagnoli's polynomial, its lowest power in the highest bit.
const POLYNOMIAL: u32 = 0x82f6_3b78;

/// CRC-32C by its definition, bit by bit.
fn sum_of(bytes: &[u8]) -> u32 {
    let mut register = u32::MAX;
    for byte in bytes {
        register ^= u32::from(*byte);
        for _ in 0..8 {
            let carried = register & 1 == 1;
            register >>= 1;
            if carried {
                register ^= POLYNOMIAL;
            }
        }
    }
    !register
}

/// The bytes of any row, an agent's or not.
pub fn bytes_of_row(row: &AgentRow) -> Vec<u8> {
    let mut bytes: Vec<u8> = row.iter().flat_map(|number| number.to_be_bytes()).collect();
    let sum = sum_of(&bytes);
    bytes.extend(sum.to_be_bytes());
    bytes
}

/// 10 1.
pub fn save(row: &AgentRow, room: &mut [u8]) -> u8 {
    let answer = first_hit(&[
        (WRONG_ROWS, room.len() < SNAPSHOT),
        (OUTSIDE_LIMITS, !row_in_limits(row)),
    ]);
    if answer == DONE {
        room[..SNAPSHOT].copy_from_slice(&bytes_of_row(row));
    }
    answer
}

/// The row that bytes hold; 11 1.
pub fn load(bytes: &[u8]) -> Result<AgentRow, u8> {
    if bytes.len() != SNAPSHOT {
        return Err(MALFORMED);
    }
    let (numbers, sum) = bytes.split_at(NUMBERS);
    let eights = numbers.chunks(8).map(|eight| eight.try_into().expect("eight bytes"));
    let row: Vec<u64> = eights.map(u64::from_be_bytes).collect();
    let row: AgentRow = row.try_into().expect("as many numbers as an agent has");
    let sound = sum == sum_of(numbers).to_be_bytes() && row[VERSION_AT] == VERSION;
    match first_hit(&[(MALFORMED, !sound), (OUTSIDE_LIMITS, !row_in_limits(&row))]) {
        DONE => Ok(row),
        number => Err(number),
    }
}

#[cfg(test)]
mod tests {
    use super::sum_of;

    /// The check value of the catalogues, and RFC 3720's vectors.
    #[test]
    fn the_sum_is_the_published_one() {
        assert_eq!(sum_of(b"123456789"), 0xe306_9283);
        assert_eq!(sum_of(&[0; 32]), 0x8a91_36aa);
        assert_eq!(sum_of(&[0xff; 32]), 0x62a8_ab43);
        assert_eq!(sum_of(&(0..32).collect::<Vec<u8>>()), 0x46dd_794e);
        assert_eq!(sum_of(&(0..32).rev().collect::<Vec<u8>>()), 0x113f_db5c);
    }
}
