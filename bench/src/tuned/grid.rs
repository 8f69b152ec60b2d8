//! Ticks, slots and the cells of lanes, by shifts and masks.

use super::agent::Title;

/// A time in a title's ticks.
#[derive(Clone, Copy)]
pub struct Moment {
    pub tick: u64,
    pub rest: u64,
}

impl Title {
    /// A tick in ms. Lengths fit 32 bits, whose division is the faster one.
    #[inline]
    pub fn tick_length(&self) -> u64 {
        let length = self.length as u32;
        if self.is_steady() {
            let blocks = 1u32 << (self.cap - 1);
            return u64::from((length + blocks - 1) >> (self.cap - 1));
        }
        u64::from(tick_length(length, self.floor, self.cap))
    }

    /// The tick that holds a time, and how far into it the time lies.
    #[inline]
    pub fn moment(&self, tick_length: u64, time: u64) -> Moment {
        let since = time.saturating_sub(self.opened);
        Moment {
            tick: since / tick_length,
            rest: since % tick_length,
        }
    }

    /// The ticks of a slot of a count, as a power of 2.
    #[inline]
    pub fn slot_bits(&self, count: u64) -> u64 {
        if self.is_steady() {
            0
        } else {
            self.cap - count
        }
    }

    /// Whether a moment is a slot start of a count.
    #[inline]
    pub fn starts_slot(&self, moment: Moment, count: u64) -> bool {
        moment.rest == 0 && moment.tick & ((1 << self.slot_bits(count)) - 1) == 0
    }

    /// How many cells hold film. Both numbers fit 32 bits.
    #[inline]
    pub fn film_cells(&self, tick_length: u64) -> u64 {
        u64::from((self.length as u32).div_ceil(tick_length as u32))
    }

    /// The cell that an active lane carries at a tick.
    #[inline]
    pub fn lane_cell(&self, lane: u64, tick: u64) -> u64 {
        if self.is_steady() {
            return steady_cell(lane, tick);
        }
        lane_cell(self.floor, self.cap, lane, tick)
    }

    /// No lane owes a tick that is this far from its drop.
    #[inline]
    pub fn reach(&self) -> u64 {
        1 << (self.cap - 1)
    }
}

#[inline]
pub fn tick_length(length: u32, floor: u64, cap: u64) -> u32 {
    let cells = (1u32 << cap) - (1 << (cap - floor));
    length.div_ceil(cells)
}

/// The blocks that a steady lane repeats.
#[inline]
pub fn steady_period(lane: u64) -> u64 {
    if lane == 0 {
        1
    } else {
        1 << (lane - 1)
    }
}

#[inline]
fn steady_cell(lane: u64, tick: u64) -> u64 {
    if lane == 0 {
        return 0;
    }
    let own = 1 << (lane - 1);
    own + (tick & (own - 1))
}

/// A lane of the floor has a channel of count A. Above it the low zeros of the slot's shifted number plus one are the
/// channel, and its segment is the channel's last.
#[inline]
pub const fn lane_cell(floor: u64, cap: u64, lane: u64, tick: u64) -> u64 {
    if lane < floor {
        let bits = cap - floor;
        let own = 1 << lane;
        let segment = own - 1 + ((tick >> bits) & (own - 1));
        return (segment << bits) + (tick & ((1 << bits) - 1));
    }
    let bits = cap - lane - 1;
    let shifted = (tick >> bits).wrapping_add(2).wrapping_sub(1 << (lane + 1 - floor));
    let channel = (shifted | 1 << lane).trailing_zeros();
    (((2 << channel) - 2) << bits) + (tick & ((1 << bits) - 1))
}
