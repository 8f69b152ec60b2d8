/* Rongalishu: the lane scheduler for cable head-ends, and the agent that follows it in each box.
 *
 *     checks/library
 *     gcc -Iinclude program.c target/staticlib/librongalishu.a
 *
 * A call answers with a number: RL_DONE, or the first of its refusals that hits, and then nothing that was lent has
 * changed. "Refusals" behind a call lists them in their order; docs/REFUSALS.md has the numbers.
 *
 * An agent is plain data, 756 numbers of 64 bits: it may be copied, stored and compared, and any numbers may be lent as
 * one. A call that reads an agent with a number out of its limits refuses it with 1.
 *
 * Times are in ms and begin at 0, an arrival is a tick. A row is lent as a pointer and the number of its places. Rows
 * that are lent to one call do not overlap, and no pointer is NULL, not even that of a row of no places. No call
 * allocates, blocks or keeps anything, so calls over different rows may run side by side.
 *
 * What the library exports are the calls whose names end in _row. Each takes the length of every row, and refuses an
 * agent that has not 756 numbers, a small box's table that has not 5,120, or a row for results that is shorter than is
 * said here, with 10 before all else; a plan by a table has that 10 at its place in the order. The
 * inline call of the same name without _row passes the lengths. checks/header holds this file against the source.
 */
#ifndef RONGALISHU_H
#define RONGALISHU_H

#include <stddef.h>
#include <stdint.h>

#ifdef __cplusplus
extern "C" {
#endif

/* --- numbers --- */

/* What a call answers. */
enum rl_answer {
  RL_DONE = 0,
  RL_OUTSIDE_LIMITS = 1,   /* a number outside its limits, or an agent with one */
  RL_TOO_EARLY = 2,        /* before the last accepted event */
  RL_NOT_THERE = 3,        /* no such title, or lane not held then */
  RL_ID_TAKEN = 4,         /* id open or not yet released */
  RL_IS_CLOSING = 5,       /* the title is closing */
  RL_UNCHANGED = 6,        /* the count that rules already */
  RL_SECOND_EVENT = 7,     /* second event of this title at one moment */
  RL_NOT_AT_SLOT = 8,      /* not at a permitted slot start */
  RL_NO_LANES = 9,         /* not enough lanes */
  RL_WRONG_ROWS = 10,      /* rows of different length, or lent room too short */
  RL_MALFORMED = 11,       /* notice, log or snapshot not well formed */
  RL_OUT_OF_TURN = 12,     /* the notice's sequence is not the next */
  RL_BELOW_FLOOR = 13,     /* count below the floor */
  RL_ABOVE_CAP = 14,       /* count above the cap */
  RL_FLOOR_ABOVE_CAP = 15, /* floor above its cap */
  RL_TOO_SOON = 16,        /* a change less than one floor slot after the last */
  RL_DOORS_UNCHANGED = 17, /* a held title is held, or one that isn't is lifted */
  RL_PAST_CLOCK = 18,      /* an event would fall after the clock's last time */
  RL_IS_STEADY = 19,       /* a skip-forward title is not changed, held or lifted */
  RL_END = 255             /* a log has no byte left: no refusal */
};

/* What a notice tells. */
enum rl_kind { RL_OPENS = 1, RL_CHANGES = 2, RL_CLOSES = 3, RL_HOLDS = 4, RL_LIFTS = 5, RL_OPENS_SKIP = 6 };

/* Limits, both ends allowed. */
#define RL_POOL_MIN 1
#define RL_POOL_MAX 64
#define RL_ID_MAX 15
#define RL_FLOOR_MIN 2
#define RL_FLOOR_MAX 5
#define RL_COUNT_MIN 2
#define RL_COUNT_MAX 12
#define RL_STEADY_MAX 10 /* the largest count of a skip-forward title */
#define RL_LENGTH_MIN 1
#define RL_LENGTH_MAX 14400000
#define RL_RATE_MIN 1
#define RL_RATE_MAX 1000
#define RL_EVENT_TIME_MAX UINT64_C(1099511627776)
#define RL_ASKED_MAX UINT64_C(2199023255552) /* of a time that is asked about, and of an arrival */
#define RL_LANE_MAX 11

/* Sizes of rows. */
#define RL_TITLES_MAX 16
#define RL_LANE_PLACES 12
#define RL_PLAN_PLACES 4096 /* the longest plan */
#define RL_ARRIVALS_MAX 4096
#define RL_TICKS_MAX 4096   /* of a record, RL_LANE_PLACES numbers each */
#define RL_NOTICE_FIELDS 8
#define RL_NOTICE_BYTES 45  /* the longest notice */
#define RL_ROM_NUMBERS 5120 /* the small box's table */
#define RL_AGENT_NUMBERS 756
#define RL_SNAPSHOT_BYTES 6052

/* An agent's first numbers. */
#define RL_LAYOUT 1 /* the layout's version, which stands first */
#define RL_SEQUENCE_AT 1
#define RL_POOL_AT 2
#define RL_LAST_AT 3

/* In a plan a cell that is never taken, in a record a lane that shows nothing, in what the air carried no
 * cell missed. */
#define RL_NOTHING 65535

/* --- plain data --- */

struct rl_agent {
  uint64_t numbers[RL_AGENT_NUMBERS];
};

/* The small box's table, for floor 3 and cap 10: filled once by rl_rom_fill, and then lent. Any numbers may be lent as
 * one: what is shown is then the number that stands there for a lane and a tick. */
struct rl_rom_table {
  uint16_t numbers[RL_ROM_NUMBERS];
};

/* What an opening on the padded grid brings. */
struct rl_film {
  uint64_t length, floor, cap, count;
};

/* A notice. Fields that its kind has not are 0 when it is read, and are not looked at when it is written. */
struct rl_notice {
  uint64_t kind, sequence, title, time, length, floor, cap, count;
};

/* How long people waited, of those who got in. */
struct rl_waits_report {
  uint64_t arrivals, admitted, longest, sum;
};

/* Admissions whose play lies in a record, those of them that played through, and those that outlast it. */
struct rl_air_report {
  uint64_t judged, played, outlast;
};

/* Notices and bytes that were taken, and stretches that were skipped. */
struct rl_salvage_report {
  uint64_t notices, bytes, stretches;
};

/* An answer in words. */
static inline const char *rl_words(enum rl_answer answer) {
  switch (answer) {
  case RL_DONE: return "done";
  case RL_OUTSIDE_LIMITS: return "number out of range";
  case RL_TOO_EARLY: return "earlier than an accepted event";
  case RL_NOT_THERE: return "title not there or lane not held";
  case RL_ID_TAKEN: return "id still in use";
  case RL_IS_CLOSING: return "title is closing";
  case RL_UNCHANGED: return "count unchanged";
  case RL_SECOND_EVENT: return "title has an event at this time";
  case RL_NOT_AT_SLOT: return "not at a permitted slot start";
  case RL_NO_LANES: return "too few free lanes";
  case RL_WRONG_ROWS: return "rows do not match or room too short";
  case RL_MALFORMED: return "malformed notice";
  case RL_OUT_OF_TURN: return "notice out of turn";
  case RL_BELOW_FLOOR: return "below the floor";
  case RL_ABOVE_CAP: return "above the cap";
  case RL_FLOOR_ABOVE_CAP: return "floor above its cap";
  case RL_TOO_SOON: return "change too soon";
  case RL_DOORS_UNCHANGED: return "doors already held or lifted";
  case RL_PAST_CLOCK: return "an event would fall after the clock's last time";
  case RL_IS_STEADY: return "a skip-forward title has a steady count and no doors to hold";
  case RL_END: return "end of the log";
  }
  return "no answer of this library";
}

/* --- the agent: a pool, its titles, and the sequence of the last notice that it took --- */

/* A fresh agent of a pool, without titles.
 * Refusals: 1 */
uint8_t rl_fresh_row(uint64_t *agent, size_t agent_len, uint64_t pool);

static inline enum rl_answer rl_fresh(struct rl_agent *agent, uint64_t pool) {
  return (enum rl_answer)rl_fresh_row(agent->numbers, RL_AGENT_NUMBERS, pool);
}

/* The sequence of the last notice that an agent took, 0 when it is fresh. */
static inline uint64_t rl_sequence(const struct rl_agent *agent) {
  return agent->numbers[RL_SEQUENCE_AT];
}

/* One notice's bytes, and nothing after them: its event is done, and the sequence moves on. A head-end writes each
 * notice with the next sequence and hands it to its own agent: what is accepted there is what boxes may hear.
 * Refusals: 11 12, and then those of its event */
uint8_t rl_take_row(uint64_t *agent, size_t agent_len, const uint8_t *bytes, size_t bytes_len);

static inline enum rl_answer rl_take(struct rl_agent *agent, const uint8_t *bytes, size_t bytes_len) {
  return (enum rl_answer)rl_take_row(agent->numbers, RL_AGENT_NUMBERS, bytes, bytes_len);
}

/* --- events, for those that keep no notices: the sequence stays --- */

/* A title opens.
 * Refusals: 1 2 4 15 13 14 9 */
uint8_t rl_open_row(uint64_t *agent, size_t agent_len, uint64_t id, uint64_t time, uint64_t length, uint64_t floor,
                    uint64_t cap, uint64_t count);

static inline enum rl_answer rl_open(struct rl_agent *agent, uint64_t id, uint64_t time, struct rl_film film) {
  return (enum rl_answer)rl_open_row(agent->numbers, RL_AGENT_NUMBERS, id, time, film.length, film.floor, film.cap,
                                     film.count);
}

/* A skip-forward title opens, with a steady count.
 * Refusals: 1 2 4 9 */
uint8_t rl_skip_row(uint64_t *agent, size_t agent_len, uint64_t id, uint64_t time, uint64_t length, uint64_t count);

static inline enum rl_answer rl_skip(struct rl_agent *agent, uint64_t id, uint64_t time, uint64_t length,
                                     uint64_t count) {
  return (enum rl_answer)rl_skip_row(agent->numbers, RL_AGENT_NUMBERS, id, time, length, count);
}

/* Another count rules from now on.
 * Refusals: 1 2 3 5 19 13 14 6 7 16 8 9 */
uint8_t rl_change_row(uint64_t *agent, size_t agent_len, uint64_t id, uint64_t time, uint64_t count);

static inline enum rl_answer rl_change(struct rl_agent *agent, uint64_t id, uint64_t time, uint64_t count) {
  return (enum rl_answer)rl_change_row(agent->numbers, RL_AGENT_NUMBERS, id, time, count);
}

/* No box may start from now on; lanes send what they owe and are released.
 * Refusals: 1 2 3 5 7 8 */
uint8_t rl_close_row(uint64_t *agent, size_t agent_len, uint64_t id, uint64_t time);

static inline enum rl_answer rl_close(struct rl_agent *agent, uint64_t id, uint64_t time) {
  return (enum rl_answer)rl_close_row(agent->numbers, RL_AGENT_NUMBERS, id, time);
}

/* The doors are held: slot starts are no admissions until they are lifted.
 * Refusals: 1 2 3 5 19 17 7 8 */
uint8_t rl_hold_row(uint64_t *agent, size_t agent_len, uint64_t id, uint64_t time);

static inline enum rl_answer rl_hold(struct rl_agent *agent, uint64_t id, uint64_t time) {
  return (enum rl_answer)rl_hold_row(agent->numbers, RL_AGENT_NUMBERS, id, time);
}

/* The doors are lifted.
 * Refusals: 1 2 3 5 19 17 7 8 */
uint8_t rl_lift_row(uint64_t *agent, size_t agent_len, uint64_t id, uint64_t time);

static inline enum rl_answer rl_lift(struct rl_agent *agent, uint64_t id, uint64_t time) {
  return (enum rl_answer)rl_lift_row(agent->numbers, RL_AGENT_NUMBERS, id, time);
}

/* --- questions --- */

/* The cell that a lane of a title shows at a time; cell has one place.
 * Refusals: 1 2 3 */
uint8_t rl_lane_row(const uint64_t *agent, size_t agent_len, uint64_t id, uint64_t lane, uint64_t time, uint64_t *cell,
                    size_t cell_len);

static inline enum rl_answer rl_lane(const struct rl_agent *agent, uint64_t id, uint64_t lane, uint64_t time,
                                     uint64_t *cell) {
  return (enum rl_answer)rl_lane_row(agent->numbers, RL_AGENT_NUMBERS, id, lane, time, cell, 1);
}

/* The same looked up in the small box's table: 1 also for a title whose floor and cap are not 3 and 10, or that is
 * skip-forward; cell has one place.
 * Refusals: 1 2 3 */
uint8_t rl_rom_lane_row(const uint64_t *agent, size_t agent_len, const uint16_t *table, size_t table_len, uint64_t id,
                        uint64_t lane, uint64_t time, uint64_t *cell, size_t cell_len);

static inline enum rl_answer rl_rom_lane(const struct rl_agent *agent, const struct rl_rom_table *table, uint64_t id,
                                         uint64_t lane, uint64_t time, uint64_t *cell) {
  return (enum rl_answer)rl_rom_lane_row(agent->numbers, RL_AGENT_NUMBERS, table->numbers, RL_ROM_NUMBERS, id, lane,
                                         time, cell, 1);
}

/* Lanes held over all titles at a time: active, or still sending; lanes has one place.
 * Refusals: 1 2 */
uint8_t rl_held_row(const uint64_t *agent, size_t agent_len, uint64_t time, uint64_t *lanes, size_t lanes_len);

static inline enum rl_answer rl_held(const struct rl_agent *agent, uint64_t time, uint64_t *lanes) {
  return (enum rl_answer)rl_held_row(agent->numbers, RL_AGENT_NUMBERS, time, lanes, 1);
}

/* Of each id its count, the lanes that it holds and 1 where its doors are held: 0 where the title isn't there, and for
 * count and mark where it is closing. The four rows are of one length.
 * Refusals: 10 1 2 */
uint8_t rl_status_row(const uint64_t *agent, size_t agent_len, uint64_t time, const uint64_t *ids, size_t ids_len,
                      uint64_t *counts, size_t counts_len, uint64_t *held, size_t held_len, uint64_t *marks,
                      size_t marks_len);

static inline enum rl_answer rl_status(const struct rl_agent *agent, uint64_t time, const uint64_t *ids,
                                       uint64_t *counts, uint64_t *held, uint64_t *marks, size_t titles) {
  return (enum rl_answer)rl_status_row(agent->numbers, RL_AGENT_NUMBERS, time, ids, titles, counts, titles, held,
                                       titles, marks, titles);
}

/* Which changes lead to the sharing of the pool at these rates, sixteen by id, from a time on: moves[0] of them, each
 * with its id, time and count in the first places of its row. Entered in order they are accepted, if nobody else acts.
 * 10 is for too little room or not sixteen rates; moves has one place.
 * Refusals: 1 2 9 10 18 */
uint8_t rl_planner_row(const uint64_t *agent, size_t agent_len, uint64_t time, const uint32_t *rates, size_t rates_len,
                       uint64_t *ids, size_t ids_len, uint64_t *times, size_t times_len, uint64_t *counts,
                       size_t counts_len, uint64_t *moves, size_t moves_len);

static inline enum rl_answer rl_planner(const struct rl_agent *agent, uint64_t time,
                                        const uint32_t rates[RL_TITLES_MAX], uint64_t *ids, uint64_t *times,
                                        uint64_t *counts, size_t room, uint64_t *moves) {
  return (enum rl_answer)rl_planner_row(agent->numbers, RL_AGENT_NUMBERS, time, rates, RL_TITLES_MAX, ids, room, times,
                                        room, counts, room, moves, 1);
}

/* --- plans and sharing: no agent is asked --- */

/* The plan of a box that starts at a slot start under a count: for each of the 2^cap cells after how many ticks it is
 * taken, RL_NOTHING where never. Later places stay.
 * Refusals: 1 15 13 14 8 10 */
uint8_t rl_plan_row(uint64_t floor, uint64_t cap, uint64_t count, uint64_t arrival, uint16_t *row, size_t row_len);

static inline enum rl_answer rl_plan(uint64_t floor, uint64_t cap, uint64_t count, uint64_t arrival, uint16_t *row,
                                     size_t row_len) {
  return (enum rl_answer)rl_plan_row(floor, cap, count, arrival, row, row_len);
}

/* The small box's table: which cell each of its ten lanes carries at each of 512 ticks, whatever the row held.
 * Refusals: 10 */
uint8_t rl_rom_fill_row(uint16_t *table, size_t table_len);

static inline enum rl_answer rl_rom_fill(struct rl_rom_table *table) {
  return (enum rl_answer)rl_rom_fill_row(table->numbers, RL_ROM_NUMBERS);
}

/* The plan looked up in that table: 1 for another floor or cap than 3 and 10.
 * Refusals: 1 15 13 14 8 10 */
uint8_t rl_rom_plan_row(const uint16_t *table, size_t table_len, uint64_t floor, uint64_t cap, uint64_t count,
                        uint64_t arrival, uint16_t *row, size_t row_len);

static inline enum rl_answer rl_rom_plan(const struct rl_rom_table *table, uint64_t floor, uint64_t cap,
                                         uint64_t count, uint64_t arrival, uint16_t *row, size_t row_len) {
  return (enum rl_answer)rl_rom_plan_row(table->numbers, RL_ROM_NUMBERS, floor, cap, count, arrival, row, row_len);
}

/* The plan of a skip-forward title's box: for each of the 2^(count - 1) blocks after how many ticks it is taken. Later
 * places stay.
 * Refusals: 1 10 */
uint8_t rl_skip_plan_row(uint64_t count, uint64_t arrival, uint16_t *row, size_t row_len);

static inline enum rl_answer rl_skip_plan(uint64_t count, uint64_t arrival, uint16_t *row, size_t row_len) {
  return (enum rl_answer)rl_skip_plan_row(count, arrival, row, row_len);
}

/* How titles share a pool, sixteen of them at most: the counts with the least sum of rate x tick x slot. The five rows
 * are of one length; counts may be longer, and later places stay.
 * Refusals: 10 1 15 9 */
uint8_t rl_share_row(uint64_t pool, const uint32_t *rates, size_t rates_len, const uint32_t *lengths,
                     size_t lengths_len, const uint32_t *floors, size_t floors_len, const uint32_t *caps,
                     size_t caps_len, uint32_t *counts, size_t counts_len);

static inline enum rl_answer rl_share(uint64_t pool, const uint32_t *rates, const uint32_t *lengths,
                                      const uint32_t *floors, const uint32_t *caps, uint32_t *counts, size_t titles) {
  return (enum rl_answer)rl_share_row(pool, rates, titles, lengths, titles, floors, titles, caps, titles, counts,
                                      titles);
}

/* --- notices: docs/NOTICES.md has their bytes --- */

/* Of a notice's row: its fields in the order of struct rl_notice. */
static inline struct rl_notice rl_notice_of(const uint64_t fields[RL_NOTICE_FIELDS]) {
  struct rl_notice notice;
  notice.kind = fields[0];
  notice.sequence = fields[1];
  notice.title = fields[2];
  notice.time = fields[3];
  notice.length = fields[4];
  notice.floor = fields[5];
  notice.cap = fields[6];
  notice.count = fields[7];
  return notice;
}

/* Writes a notice at the start of a room and says how many bytes it has; later bytes stay. 10 is for a room that is
 * shorter than a notice of its kind, 1 for an unknown kind, whatever the room, and for a number that its field does not
 * hold; fields has eight places and no more, written one.
 * Refusals: 10 1 */
uint8_t rl_write_row(const uint64_t *fields, size_t fields_len, uint8_t *room, size_t room_len, uint64_t *written,
                     size_t written_len);

static inline enum rl_answer rl_write(const struct rl_notice *notice, uint8_t *room, size_t room_len,
                                      uint64_t *written) {
  uint64_t fields[RL_NOTICE_FIELDS];
  fields[0] = notice->kind;
  fields[1] = notice->sequence;
  fields[2] = notice->title;
  fields[3] = notice->time;
  fields[4] = notice->length;
  fields[5] = notice->floor;
  fields[6] = notice->cap;
  fields[7] = notice->count;
  return (enum rl_answer)rl_write_row(fields, RL_NOTICE_FIELDS, room, room_len, written, 1);
}

/* Reads one notice's bytes, and nothing after them; fields has eight places, and later ones stay.
 * Refusals: 11 */
uint8_t rl_read_row(const uint8_t *bytes, size_t bytes_len, uint64_t *fields, size_t fields_len);

static inline enum rl_answer rl_read(const uint8_t *bytes, size_t bytes_len, struct rl_notice *notice) {
  uint64_t fields[RL_NOTICE_FIELDS] = {0};
  const enum rl_answer answer = (enum rl_answer)rl_read_row(bytes, bytes_len, fields, RL_NOTICE_FIELDS);
  if (answer == RL_DONE)
    *notice = rl_notice_of(fields);
  return answer;
}

/* The notice that begins at a place of a log, notices back to back; the place moves behind it. RL_END where no byte is
 * left, or the place lies past the end; place has one place, fields eight.
 * Refusals: 11 */
uint8_t rl_next_row(const uint8_t *log, size_t log_len, uint64_t *place, size_t place_len, uint64_t *fields,
                    size_t fields_len);

static inline enum rl_answer rl_next(const uint8_t *log, size_t log_len, uint64_t *place, struct rl_notice *notice) {
  uint64_t fields[RL_NOTICE_FIELDS] = {0};
  const enum rl_answer answer = (enum rl_answer)rl_next_row(log, log_len, place, 1, fields, RL_NOTICE_FIELDS);
  if (answer == RL_DONE)
    *notice = rl_notice_of(fields);
  return answer;
}

/* --- reports over a log, played into a fresh agent of a pool: a notice that is refused there counts for nothing --- */

/* How long those who came at the given times waited for a title's next admission, over its latest opening; 10 is for
 * more than 4,096 arrivals. report has four places.
 * Refusals: 1 10 11 */
uint8_t rl_waits_row(uint64_t pool, uint64_t title, const uint8_t *log, size_t log_len, const uint64_t *arrivals,
                     size_t arrivals_len, uint64_t *report, size_t report_len);

static inline enum rl_answer rl_waits(uint64_t pool, uint64_t title, const uint8_t *log, size_t log_len,
                                      const uint64_t *arrivals, size_t arrivals_len, struct rl_waits_report *report) {
  uint64_t report_row[4] = {0};
  const enum rl_answer answer =
      (enum rl_answer)rl_waits_row(pool, title, log, log_len, arrivals, arrivals_len, report_row, 4);
  if (answer == RL_DONE) {
    report->arrivals = report_row[0];
    report->admitted = report_row[1];
    report->longest = report_row[2];
    report->sum = report_row[3];
  }
  return answer;
}

/* What became of the boxes of a title's latest opening, by a record of twelve numbers for each tick from the opening
 * on: row gets for each admission whose play lies in the record the lowest cell of the film that no lane showed by its
 * turn, or RL_NOTHING. row has a place for each tick, report three.
 * Refusals: 1 10 11 3 1 */
uint8_t rl_air_row(uint64_t pool, uint64_t title, const uint8_t *log, size_t log_len, const uint16_t *record,
                   size_t record_len, uint16_t *row, size_t row_len, uint64_t *report, size_t report_len);

static inline enum rl_answer rl_air(uint64_t pool, uint64_t title, const uint8_t *log, size_t log_len,
                                    const uint16_t *record, size_t record_len, uint16_t *row, size_t row_len,
                                    struct rl_air_report *report) {
  uint64_t report_row[3] = {0};
  const enum rl_answer answer =
      (enum rl_answer)rl_air_row(pool, title, log, log_len, record, record_len, row, row_len, report_row, 3);
  if (answer == RL_DONE) {
    report->judged = report_row[0];
    report->played = report_row[1];
    report->outlast = report_row[2];
  }
  return answer;
}

/* For each tick of a title's latest opening, as many as the row has places: 1 where it is an admission, else 0.
 * Refusals: 1 11 3 */
uint8_t rl_admissions_row(uint64_t pool, uint64_t title, const uint8_t *log, size_t log_len, uint8_t *marks,
                          size_t marks_len);

static inline enum rl_answer rl_admissions(uint64_t pool, uint64_t title, const uint8_t *log, size_t log_len,
                                           uint8_t *marks, size_t marks_len) {
  return (enum rl_answer)rl_admissions_row(pool, title, log, log_len, marks, marks_len);
}

/* What is left of a damaged log: the notices that are whole and in rising order go to area, and each skipped stretch
 * puts its start and its length, two numbers, into stretches. report has three places.
 * Refusals: 10 */
uint8_t rl_salvage_row(const uint8_t *log, size_t log_len, uint8_t *area, size_t area_len, uint64_t *stretches,
                       size_t stretches_len, uint64_t *report, size_t report_len);

static inline enum rl_answer rl_salvage(const uint8_t *log, size_t log_len, uint8_t *area, size_t area_len,
                                        uint64_t *stretches, size_t stretches_len, struct rl_salvage_report *report) {
  uint64_t report_row[3] = {0};
  const enum rl_answer answer =
      (enum rl_answer)rl_salvage_row(log, log_len, area, area_len, stretches, stretches_len, report_row, 3);
  if (answer == RL_DONE) {
    report->notices = report_row[0];
    report->bytes = report_row[1];
    report->stretches = report_row[2];
  }
  return answer;
}

/* --- snapshots: an agent as bytes, so that a box need not hear every notice since the first --- */

/* Writes an agent as 6,052 bytes: its numbers, big-endian, and the CRC-32C of those, big-endian too. room has 6,052
 * places; later ones stay.
 * Refusals: 1 */
uint8_t rl_save_row(const uint64_t *agent, size_t agent_len, uint8_t *room, size_t room_len);

static inline enum rl_answer rl_save(const struct rl_agent *agent, uint8_t room[RL_SNAPSHOT_BYTES]) {
  return (enum rl_answer)rl_save_row(agent->numbers, RL_AGENT_NUMBERS, room, RL_SNAPSHOT_BYTES);
}

/* Reads such bytes into an agent, whatever it was: 11 for bytes that are cut, damaged or of another version, 1 for
 * numbers out of their limits. Hand it the notices behind rl_sequence, and it is the agent that heard all of them.
 * Refusals: 11 1 */
uint8_t rl_load_row(uint64_t *agent, size_t agent_len, const uint8_t *bytes, size_t bytes_len);

static inline enum rl_answer rl_load(struct rl_agent *agent, const uint8_t *bytes, size_t bytes_len) {
  return (enum rl_answer)rl_load_row(agent->numbers, RL_AGENT_NUMBERS, bytes, bytes_len);
}

#ifdef __cplusplus
}
#endif

#endif
