/* A box: follows a log of notices, begins at an admission and plays a title to its end.
 *
 *     box LOG TITLE TIME
 *
 * TIME is when the viewer asks for the title, in ms. A line for each tick of the play: the cell that plays, and for
 * each lane the cell that it shows, with + where the box takes it and - where it throws it away. Once all cells have
 * come, the box plays them from its store and looks at no lane.
 */
#include "rongalishu.h"

#include <errno.h>
#include <inttypes.h>
#include <stdio.h>
#include <stdlib.h>
#include <string.h>

enum { POOL = 8, LOG_ROOM = 1 << 20 };

/* The agent, the log that it follows, and the title with its latest opening that was heard (kind 0: none). */
struct box {
  struct rl_agent agent;
  const uint8_t *log;
  size_t log_len;
  uint64_t place;
  uint64_t title;
  struct rl_notice opening;
};

/* A play: its start, its plan, and what has come. */
struct play {
  uint64_t start, tick, cells, film;
  uint16_t plan[RL_PLAN_PLACES];
  uint8_t had[RL_PLAN_PLACES];
  uint64_t missing, taken, thrown;
};

/* What a title's status says. */
struct standing {
  uint64_t count, held, doors;
};

static int tell_refusal(const char *what, enum rl_answer answer) {
  fprintf(stderr, "? %s: %d %s\n", what, (int)answer, rl_words(answer));
  return 0;
}

/* --- following the log --- */

/* Hears one notice. One that is refused changes nothing; at 12 one is missing, and what follows is refused too. */
static void hear(struct box *box, const struct rl_notice *notice, uint64_t after) {
  const enum rl_answer answer = rl_take(&box->agent, box->log + box->place, (size_t)(after - box->place));
  const int opens = notice->kind == RL_OPENS || notice->kind == RL_OPENS_SKIP;
  if (answer != RL_DONE)
    fprintf(stderr, "? notice %" PRIu64 " does not count: %d %s\n", notice->sequence, (int)answer, rl_words(answer));
  else if (opens && notice->title == box->title)
    box->opening = *notice;
  box->place = after;
}

/* Hears the notices up to a time. 0 where the log can't be read on. */
static int hear_until(struct box *box, uint64_t time) {
  for (;;) {
    struct rl_notice notice;
    uint64_t after = box->place;
    const enum rl_answer answer = rl_next(box->log, box->log_len, &after, &notice);
    if (answer == RL_END || (answer == RL_DONE && notice.time > time))
      return 1;
    if (answer != RL_DONE)
      return tell_refusal("the log", answer);
    hear(box, &notice, after);
  }
}

/* --- getting in --- */

static int ask_status(const struct box *box, uint64_t time, struct standing *standing) {
  const enum rl_answer answer =
      rl_status(&box->agent, time, &box->title, &standing->count, &standing->held, &standing->doors, 1);
  return answer == RL_DONE ? 1 : tell_refusal("status", answer);
}

/* Of a film the length of a tick, its cells and those that hold film (document 01, "Cells, ticks, slots"). */
static void measure(struct play *play, const struct rl_notice *opening) {
  const uint64_t parts = (UINT64_C(1) << opening->cap) - (UINT64_C(1) << (opening->cap - opening->floor));
  play->tick = (opening->length + parts - 1) / parts;
  play->cells = UINT64_C(1) << opening->cap;
  play->film = (opening->length + play->tick - 1) / play->tick;
  if (play->film > play->cells)
    play->film = play->cells;
}

static uint64_t time_of(const struct box *box, const struct play *play, uint64_t tick) {
  return box->opening.time + tick * play->tick;
}

/* The first tick from a time on that is an admission: a slot start of the ruling count while the doors are open. */
static int find_admission(struct box *box, struct play *play, uint64_t from, uint64_t *count) {
  const uint64_t opened = box->opening.sequence;
  uint64_t tick = (from - box->opening.time + play->tick - 1) / play->tick;
  for (;; tick++) {
    const uint64_t time = time_of(box, play, tick);
    struct standing now;
    if (!hear_until(box, time) || !ask_status(box, time, &now))
      return 0;
    if (now.count == 0 || box->opening.sequence != opened) {
      fprintf(stderr, "? title %" PRIu64 " was closed: no box gets in any more\n", box->title);
      return 0;
    }
    if (now.doors == 0 && tick % (UINT64_C(1) << (box->opening.cap - now.count)) == 0) {
      play->start = tick;
      *count = now.count;
      return 1;
    }
    if (now.doors != 0 && box->place == box->log_len) {
      fprintf(stderr, "? the doors of title %" PRIu64 " are held, and the log has ended\n", box->title);
      return 0;
    }
  }
}

/* Whether there is a title to wait for: opened in the log by that time, on the padded grid. */
static int is_playable(const struct box *box) {
  if (box->opening.kind == RL_OPENS)
    return 1;
  if (box->opening.kind == RL_OPENS_SKIP)
    fprintf(stderr, "? title %" PRIu64 " is a skip-forward title: rl_skip_plan has its plan\n", box->title);
  else
    fprintf(stderr, "? title %" PRIu64 " is not open by then\n", box->title);
  return 0;
}

static void tell_start(const struct box *box, const struct play *play, uint64_t from, uint64_t count) {
  const uint64_t time = time_of(box, play, play->start);
  uint64_t cell, lane;
  printf("gets in at tick %" PRIu64 ", %" PRIu64 " ms, after %" PRIu64 " ms, under %" PRIu64 " lanes\n", play->start,
         time, time - from, count);
  printf("plan, in ticks from there:");
  for (cell = 0; cell < play->cells; cell++)
    if (play->plan[cell] == RL_NOTHING)
      printf(" -");
    else
      printf(" %u", (unsigned)play->plan[cell]);
  printf("\n\n tick plays");
  for (lane = 0; lane < box->opening.cap; lane++)
    printf("  lane %2" PRIu64, lane);
  printf("\n");
}

/* Waits for an admission, and makes the plan of it. */
static int begin(struct box *box, struct play *play, uint64_t from) {
  uint64_t count = 0;
  enum rl_answer answer;
  if (!hear_until(box, from) || !is_playable(box))
    return 0;
  measure(play, &box->opening);
  if (!find_admission(box, play, from, &count))
    return 0;
  answer = rl_plan(box->opening.floor, box->opening.cap, count, play->start, play->plan, RL_PLAN_PLACES);
  if (answer != RL_DONE)
    return tell_refusal("plan", answer);
  play->missing = play->film;
  tell_start(box, play, from, count);
  return 1;
}

/* --- playing --- */

/* Whether the box takes a cell: at its tick by the plan, or from a dropped lane, which sends what boxes still await
 * packed together and so before its tick. All else is thrown away: padding, cells that came before, cells that will
 * come again. */
static int is_wanted(const struct play *play, uint64_t now, uint64_t cell, int dropped) {
  if (cell >= play->film || play->had[cell] || play->plan[cell] == RL_NOTHING)
    return 0;
  return play->plan[cell] == now || (dropped && play->plan[cell] > now);
}

static void tell_cell(char sign, uint64_t cell) {
  char text[24];
  snprintf(text, sizeof text, "%c%" PRIu64, sign, cell);
  printf("%9s", text);
}

/* What a lane shows at a tick of the play, and what becomes of it. */
static int see_lane(const struct box *box, struct play *play, uint64_t now, uint64_t lane, uint64_t count) {
  const uint64_t time = time_of(box, play, play->start + now);
  uint64_t cell = 0;
  const enum rl_answer answer = rl_lane(&box->agent, box->title, lane, time, &cell);
  if (answer == RL_NOT_THERE) {
    printf("%9s", ".");
    return 1;
  }
  if (answer != RL_DONE)
    return tell_refusal("lane", answer);
  if (is_wanted(play, now, cell, lane >= count)) {
    play->had[cell] = 1;
    play->missing--;
    play->taken++;
    tell_cell('+', cell);
  } else {
    play->thrown++;
    tell_cell('-', cell);
  }
  return 1;
}

/* One tick: hears what is told by then, looks at every lane as long as a cell is missing, and plays a cell. */
static int play_tick(struct box *box, struct play *play, uint64_t now) {
  const uint64_t time = time_of(box, play, play->start + now);
  struct standing standing;
  uint64_t lane;
  printf("%5" PRIu64 " %5" PRIu64, play->start + now, now);
  if (play->missing > 0) {
    if (!hear_until(box, time) || !ask_status(box, time, &standing))
      return 0;
    for (lane = 0; lane < box->opening.cap; lane++)
      if (!see_lane(box, play, now, lane, standing.count))
        return 0;
  }
  printf("\n");
  if (now < play->film && !play->had[now]) {
    fprintf(stderr, "? cell %" PRIu64 " has not come by its turn\n", now);
    return 0;
  }
  return 1;
}

static int play_through(struct box *box, struct play *play) {
  uint64_t now;
  for (now = 0; now < play->film; now++)
    if (!play_tick(box, play, now))
      return 0;
  printf("\nplayed %" PRIu64 " cells of film; %" PRIu64 " taken, %" PRIu64 " thrown away\n", play->film, play->taken,
         play->thrown);
  return 1;
}

/* --- the program --- */

/* Reads a whole log. 0 where it can't be read, or is too long. */
static int load(const char *name, uint8_t *room, size_t *size) {
  FILE *file = fopen(name, "rb");
  int failed;
  if (file == NULL) {
    fprintf(stderr, "? %s: %s\n", name, strerror(errno));
    return 0;
  }
  *size = fread(room, 1, LOG_ROOM + 1, file);
  failed = ferror(file);
  if (failed)
    fprintf(stderr, "? %s: %s\n", name, strerror(errno));
  fclose(file);
  if (!failed && *size > LOG_ROOM) {
    fprintf(stderr, "? %s: more than %d bytes\n", name, LOG_ROOM);
    return 0;
  }
  return !failed;
}

/* A decimal number up to a limit. */
static int number(const char *word, uint64_t most, uint64_t *value) {
  char *end = NULL;
  errno = 0;
  *value = strtoull(word, &end, 10);
  if (word[0] >= '0' && word[0] <= '9' && *end == '\0' && errno == 0 && *value <= most)
    return 1;
  fprintf(stderr, "? %s: not a number up to %" PRIu64 "\n", word, most);
  return 0;
}

int main(int argc, char **argv) {
  static uint8_t log[LOG_ROOM + 1];
  static struct box box;
  static struct play play;
  uint64_t from = 0;
  enum rl_answer answer;

  if (argc != 4) {
    fprintf(stderr, "? box LOG TITLE TIME\n");
    return 1;
  }
  if (!load(argv[1], log, &box.log_len) || !number(argv[2], RL_ID_MAX, &box.title) ||
      !number(argv[3], RL_EVENT_TIME_MAX, &from))
    return 1;
  box.log = log;
  answer = rl_fresh(&box.agent, POOL);
  if (answer != RL_DONE)
    return !tell_refusal("the pool", answer);
  return begin(&box, &play, from) && play_through(&box, &play) ? 0 : 1;
}
