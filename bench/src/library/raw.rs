//! What the library exports (include/rongalishu.h): every row is a pointer and how many places it has. The calls are linked,
//! or with the feature `emulated` put to a program that has them linked.

#[cfg(not(feature = "emulated"))]
macro_rules! exported {
    ($($calls:tt)*) => {
        #[link(name = "rongalishu", kind = "static")]
        extern "C" {
            $($calls)*
        }
    };
}

#[cfg(feature = "emulated")]
macro_rules! exported {
    ($(pub fn $name:ident($($argument:ident: $kind:ty),* $(,)?) -> u8;)*) => {
        $(
            /// # Safety
            /// As of every call of the library: a pointer and its length are those of one row.
            pub unsafe fn $name($($argument: $kind),*) -> u8 {
                let mut call = super::emulated::Call::new(stringify!($name));
                $(call.lend($argument);)*
                call.put()
            }
        )*
    };
}

exported! {
    pub fn rl_fresh_row(agent: *mut u64, agent_len: usize, pool: u64) -> u8;
    pub fn rl_open_row(
        agent: *mut u64,
        agent_len: usize,
        id: u64,
        time: u64,
        length: u64,
        floor: u64,
        cap: u64,
        count: u64,
    ) -> u8;
    pub fn rl_skip_row(agent: *mut u64, agent_len: usize, id: u64, time: u64, length: u64, count: u64) -> u8;
    pub fn rl_change_row(agent: *mut u64, agent_len: usize, id: u64, time: u64, count: u64) -> u8;
    pub fn rl_close_row(agent: *mut u64, agent_len: usize, id: u64, time: u64) -> u8;
    pub fn rl_hold_row(agent: *mut u64, agent_len: usize, id: u64, time: u64) -> u8;
    pub fn rl_lift_row(agent: *mut u64, agent_len: usize, id: u64, time: u64) -> u8;
    pub fn rl_take_row(agent: *mut u64, agent_len: usize, bytes: *const u8, bytes_len: usize) -> u8;

    pub fn rl_lane_row(
        agent: *const u64,
        agent_len: usize,
        id: u64,
        lane: u64,
        time: u64,
        cell: *mut u64,
        cell_len: usize,
    ) -> u8;
    pub fn rl_rom_lane_row(
        agent: *const u64,
        agent_len: usize,
        table: *const u16,
        table_len: usize,
        id: u64,
        lane: u64,
        time: u64,
        cell: *mut u64,
        cell_len: usize,
    ) -> u8;
    pub fn rl_held_row(agent: *const u64, agent_len: usize, time: u64, lanes: *mut u64, lanes_len: usize) -> u8;
    pub fn rl_status_row(
        agent: *const u64,
        agent_len: usize,
        time: u64,
        ids: *const u64,
        ids_len: usize,
        counts: *mut u64,
        counts_len: usize,
        held: *mut u64,
        held_len: usize,
        marks: *mut u64,
        marks_len: usize,
    ) -> u8;
    pub fn rl_planner_row(
        agent: *const u64,
        agent_len: usize,
        time: u64,
        rates: *const u32,
        rates_len: usize,
        ids: *mut u64,
        ids_len: usize,
        times: *mut u64,
        times_len: usize,
        counts: *mut u64,
        counts_len: usize,
        moves: *mut u64,
        moves_len: usize,
    ) -> u8;

    pub fn rl_plan_row(floor: u64, cap: u64, count: u64, arrival: u64, row: *mut u16, row_len: usize) -> u8;
    pub fn rl_rom_fill_row(table: *mut u16, table_len: usize) -> u8;
    pub fn rl_rom_plan_row(
        table: *const u16,
        table_len: usize,
        floor: u64,
        cap: u64,
        count: u64,
        arrival: u64,
        row: *mut u16,
        row_len: usize,
    ) -> u8;
    pub fn rl_skip_plan_row(count: u64, arrival: u64, row: *mut u16, row_len: usize) -> u8;
    pub fn rl_share_row(
        pool: u64,
        rates: *const u32,
        rates_len: usize,
        lengths: *const u32,
        lengths_len: usize,
        floors: *const u32,
        floors_len: usize,
        caps: *const u32,
        caps_len: usize,
        counts: *mut u32,
        counts_len: usize,
    ) -> u8;

    pub fn rl_write_row(
        fields: *const u64,
        fields_len: usize,
        room: *mut u8,
        room_len: usize,
        written: *mut u64,
        written_len: usize,
    ) -> u8;
    pub fn rl_read_row(bytes: *const u8, bytes_len: usize, fields: *mut u64, fields_len: usize) -> u8;
    pub fn rl_next_row(
        log: *const u8,
        log_len: usize,
        place: *mut u64,
        place_len: usize,
        fields: *mut u64,
        fields_len: usize,
    ) -> u8;

    pub fn rl_waits_row(
        pool: u64,
        title: u64,
        log: *const u8,
        log_len: usize,
        arrivals: *const u64,
        arrivals_len: usize,
        report: *mut u64,
        report_len: usize,
    ) -> u8;
    pub fn rl_air_row(
        pool: u64,
        title: u64,
        log: *const u8,
        log_len: usize,
        record: *const u16,
        record_len: usize,
        row: *mut u16,
        row_len: usize,
        report: *mut u64,
        report_len: usize,
    ) -> u8;
    pub fn rl_admissions_row(
        pool: u64,
        title: u64,
        log: *const u8,
        log_len: usize,
        marks: *mut u8,
        marks_len: usize,
    ) -> u8;
    pub fn rl_salvage_row(
        log: *const u8,
        log_len: usize,
        area: *mut u8,
        area_len: usize,
        stretches: *mut u64,
        stretches_len: usize,
        report: *mut u64,
        report_len: usize,
    ) -> u8;

    pub fn rl_save_row(agent: *const u64, agent_len: usize, room: *mut u8, room_len: usize) -> u8;
    pub fn rl_load_row(agent: *mut u64, agent_len: usize, bytes: *const u8, bytes_len: usize) -> u8;
}
