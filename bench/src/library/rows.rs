//! Rows that a call of the library writes its results to.

use crate::refusals::DONE;

/// What such a row holds before a call.
const LENT: u64 = 0xfeed_face_cafe_f00d;
/// Stands for a number that a refused call has written: no subject answers it.
const CHANGED: u64 = u64::MAX;

/// A row of results, lent anew.
pub fn lent<const N: usize>() -> [u64; N] {
    [LENT; N]
}

/// What a call has given: its results, or zeros where it was refused and has left the row alone.
pub fn given<const N: usize>(answer: u8, row: [u64; N]) -> [u64; N] {
    if answer == DONE {
        row
    } else {
        row.map(|number| if number == LENT { 0 } else { CHANGED })
    }
}
