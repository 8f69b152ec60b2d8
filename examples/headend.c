/* An evening at a head-end: a title opens, loses and gains lanes and closes, and every notice goes to a log.
 *
 *     headend LOG
 *
 * An event becomes a notice with the next sequence, and is tried on a copy of the agent. What is accepted goes to the
 * log, and only then the copy is the agent: boxes hear what was accepted, and nothing else, also where the disk fails.
 */
#include "rongalishu.h"

#include <errno.h>
#include <inttypes.h>
#include <stdio.h>
#include <string.h>

enum { POOL = 8, TITLE = 3 };

/* A film of 16 cells, 96 s each: 12 of film, the others padding. */
static const struct rl_film FILM = {12 * UINT64_C(96000), 2, 4, 4};
static const uint64_t TICK = 96000;

struct headend {
  struct rl_agent agent;
  FILE *log;
  const char *log_name;
};

static const char *kind_name(uint64_t kind) {
  switch (kind) {
  case RL_OPENS: return "open";
  case RL_CHANGES: return "change";
  case RL_CLOSES: return "close";
  case RL_HOLDS: return "hold";
  case RL_LIFTS: return "lift";
  case RL_OPENS_SKIP: return "open, skip-forward,";
  default: return "unknown";
  }
}

/* An event and what became of it; a refusal in words. */
static void tell(const struct headend *headend, const struct rl_notice *notice, enum rl_answer answer) {
  uint64_t held = 0;
  printf("%" PRIu64 " %s title %" PRIu64 " at %" PRIu64 " ms", notice->sequence, kind_name(notice->kind),
         notice->title, notice->time);
  if (notice->count != 0)
    printf(" with %" PRIu64 " lanes", notice->count);
  if (answer != RL_DONE) {
    printf(": refused, %d %s\n", (int)answer, rl_words(answer));
    return;
  }
  answer = rl_held(&headend->agent, notice->time, &held);
  if (answer != RL_DONE)
    printf(": done; lanes held: refused, %d %s\n", (int)answer, rl_words(answer));
  else
    printf(": done, %" PRIu64 " of %d lanes held\n", held, POOL);
}

/* Appends a notice to the log, through to the system. 0 where that fails. */
static int append(const struct headend *headend, const uint8_t *bytes, size_t size) {
  if (fwrite(bytes, 1, size, headend->log) == size && fflush(headend->log) == 0)
    return 1;
  fprintf(stderr, "? %s: %s\n", headend->log_name, strerror(errno));
  return 0;
}

/* An event becomes a notice, is tried, written and told. A refusal leaves all as it was; 0 where the log fails. */
static int announce(struct headend *headend, struct rl_notice notice) {
  struct rl_agent next = headend->agent;
  uint8_t room[RL_NOTICE_BYTES];
  uint64_t size = 0;
  enum rl_answer answer;

  notice.sequence = rl_sequence(&headend->agent) + 1;
  notice.title = TITLE;
  answer = rl_write(&notice, room, sizeof room, &size);
  if (answer == RL_DONE)
    answer = rl_take(&next, room, (size_t)size);
  if (answer == RL_DONE) {
    if (!append(headend, room, (size_t)size))
      return 0;
    headend->agent = next;
  }
  tell(headend, &notice, answer);
  return 1;
}

static int opens(struct headend *headend, uint64_t time) {
  struct rl_notice notice = {RL_OPENS, 0, 0, time, FILM.length, FILM.floor, FILM.cap, FILM.count};
  return announce(headend, notice);
}

static int changes(struct headend *headend, uint64_t time, uint64_t count) {
  struct rl_notice notice = {RL_CHANGES, 0, 0, time, 0, 0, 0, count};
  return announce(headend, notice);
}

static int closes(struct headend *headend, uint64_t time) {
  struct rl_notice notice = {RL_CLOSES, 0, 0, time, 0, 0, 0, 0};
  return announce(headend, notice);
}

/* Says tick by tick how many lanes still send, until the last is released. */
static void tell_releases(const struct headend *headend, uint64_t time) {
  uint64_t held = 0;
  do {
    const enum rl_answer answer = rl_held(&headend->agent, time, &held);
    if (answer != RL_DONE) {
      printf("lanes held at %" PRIu64 " ms: refused, %d %s\n", time, (int)answer, rl_words(answer));
      return;
    }
    printf("at %" PRIu64 " ms: %" PRIu64 " of %d lanes held\n", time, held, POOL);
    time += TICK;
  } while (held > 0);
}

/* The evening; the third event comes too soon after the second, is refused, and its sequence goes to the next. */
static int evening(struct headend *headend) {
  if (!opens(headend, 0) || !changes(headend, 4 * TICK, 3) || !changes(headend, 6 * TICK, 4) ||
      !changes(headend, 8 * TICK, 4) || !closes(headend, 16 * TICK))
    return 0;
  tell_releases(headend, 16 * TICK);
  return 1;
}

int main(int argc, char **argv) {
  static struct headend headend;
  enum rl_answer answer;
  int done;

  if (argc != 2) {
    fprintf(stderr, "? headend LOG\n");
    return 1;
  }
  answer = rl_fresh(&headend.agent, POOL);
  if (answer != RL_DONE) {
    fprintf(stderr, "? a pool of %d: %d %s\n", POOL, (int)answer, rl_words(answer));
    return 1;
  }
  headend.log_name = argv[1];
  headend.log = fopen(headend.log_name, "wb");
  if (headend.log == NULL) {
    fprintf(stderr, "? %s: %s\n", headend.log_name, strerror(errno));
    return 1;
  }
  done = evening(&headend);
  if (fclose(headend.log) != 0 && done) {
    fprintf(stderr, "? %s: %s\n", headend.log_name, strerror(errno));
    return 1;
  }
  return done ? 0 : 1;
}
