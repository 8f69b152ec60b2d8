//! What calls answer (01, "Numbers that calls give back", and 02's additions).

pub const DONE: u8 = 0;
pub const OUTSIDE_LIMITS: u8 = 1;
pub const TOO_EARLY: u8 = 2;
pub const NOT_THERE: u8 = 3;
pub const ID_TAKEN: u8 = 4;
pub const IS_CLOSING: u8 = 5;
pub const UNCHANGED: u8 = 6;
pub const SECOND_EVENT: u8 = 7;
pub const NOT_AT_SLOT: u8 = 8;
pub const NO_LANES: u8 = 9;
pub const WRONG_ROWS: u8 = 10;
pub const MALFORMED: u8 = 11;
pub const OUT_OF_TURN: u8 = 12;
pub const BELOW_FLOOR: u8 = 13;
pub const ABOVE_CAP: u8 = 14;
pub const FLOOR_ABOVE_CAP: u8 = 15;
pub const TOO_SOON: u8 = 16;
pub const DOORS_UNCHANGED: u8 = 17;
pub const PAST_CLOCK: u8 = 18;
pub const IS_STEADY: u8 = 19;
/// A log has no byte left: no refusal, and no number of 01's.
pub const END: u8 = 255;

/// The first refusal of an order whose test hits, or done.
pub fn first_hit(order: &[(u8, bool)]) -> u8 {
    order.iter().find(|(_, hit)| *hit).map_or(DONE, |(number, _)| *number)
}
