/* The library behind a pipe, for machines that cannot link it: on them this program runs under an emulator of x86-64,
 * and the bench puts its calls to it (src/library/emulated.rs). It needs no C library, so that none for x86-64 has to
 * be there.
 *
 * A request on standard input, in words of 64 bits: the call's name in four of them, 1 where its stack is to be
 * measured, how many numbers and how many rows; the numbers; of each row its bytes and its places; and the rows'
 * contents, each filled up to a whole word. On standard output comes back: the answer, the bytes of stack, and the
 * rows' contents.
 */
#include "rongalishu.h"

enum { NAME = 4, NUMBERS = 8, ROWS = 8, ROOM = 1 << 21, PAINTED = 1 << 17, CLEAR = 32, UNKNOWN = 254 };

#define PAINT UINT64_C(0x5a5aa5a5c3c33c3c)

struct row {
  uint64_t bytes, places;
};

struct head {
  uint64_t name[NAME], measures, numbers, rows;
};

static struct head head;
static uint64_t numbers[NUMBERS];
static struct row rows[ROWS];
static uint64_t room[ROOM];
static uint64_t *at[ROWS];

/* --- the system --- */

#if __STDC_HOSTED__
#include <unistd.h>
#else
/* A system call of x86-64 with three numbers. */
static long system_call(long number, long a, const void *b, size_t c) {
  long result;
  __asm__ volatile("syscall" : "=a"(result) : "a"(number), "D"(a), "S"(b), "d"(c) : "rcx", "r11", "memory");
  return result;
}

static long read(int file, void *to, size_t size) {
  return system_call(0, file, to, size);
}

static long write(int file, const void *from, size_t size) {
  return system_call(1, file, from, size);
}

/* What the library wants of a C library: it copies and clears with these two. Words first, as most of it is words. */
void *memcpy(void *to, const void *from, size_t size);
void *memset(void *to, int byte, size_t size);

typedef uint64_t __attribute__((may_alias, aligned(1))) word;

void *memcpy(void *to, const void *from, size_t size) {
  unsigned char *left = (unsigned char *)to;
  const unsigned char *next = (const unsigned char *)from;
  for (; size >= sizeof(word); size -= sizeof(word), left += sizeof(word), next += sizeof(word))
    *(word *)left = *(const word *)next;
  for (; size > 0; size--)
    *left++ = *next++;
  return to;
}

void *memset(void *to, int byte, size_t size) {
  unsigned char *left = (unsigned char *)to;
  const word filled = UINT64_C(0x0101010101010101) * (unsigned char)byte;
  for (; size >= sizeof(word); size -= sizeof(word), left += sizeof(word))
    *(word *)left = filled;
  for (; size > 0; size--)
    *left++ = (unsigned char)byte;
  return to;
}
#endif

/* All of so many bytes; 0 where the other side has gone. */
static int get(void *to, size_t size) {
  unsigned char *next = (unsigned char *)to;
  while (size > 0) {
    const long done = read(0, next, size);
    if (done <= 0)
      return 0;
    next += done;
    size -= (size_t)done;
  }
  return 1;
}

static int put(const void *from, size_t size) {
  const unsigned char *next = (const unsigned char *)from;
  while (size > 0) {
    const long done = write(1, next, size);
    if (done <= 0)
      return 0;
    next += done;
    size -= (size_t)done;
  }
  return 1;
}

/* --- a request --- */

static int is_called(const char *name) {
  const char *asked = (const char *)head.name;
  size_t i = 0;
  while (i < sizeof head.name - 1 && asked[i] == name[i] && name[i] != '\0')
    i++;
  return asked[i] == name[i];
}

#define N(i) numbers[i]
#define ROW(type, i) (type *)(void *)at[i], (size_t)rows[i].places
#define CALL(name, ...)                                                                                                \
  if (is_called(#name))                                                                                                \
  return name(__VA_ARGS__)

static uint8_t answered_event(void) {
  CALL(rl_fresh_row, ROW(uint64_t, 0), N(0));
  CALL(rl_open_row, ROW(uint64_t, 0), N(0), N(1), N(2), N(3), N(4), N(5));
  CALL(rl_skip_row, ROW(uint64_t, 0), N(0), N(1), N(2), N(3));
  CALL(rl_change_row, ROW(uint64_t, 0), N(0), N(1), N(2));
  CALL(rl_close_row, ROW(uint64_t, 0), N(0), N(1));
  CALL(rl_hold_row, ROW(uint64_t, 0), N(0), N(1));
  CALL(rl_lift_row, ROW(uint64_t, 0), N(0), N(1));
  CALL(rl_take_row, ROW(uint64_t, 0), ROW(uint8_t, 1));
  CALL(rl_save_row, ROW(uint64_t, 0), ROW(uint8_t, 1));
  CALL(rl_load_row, ROW(uint64_t, 0), ROW(uint8_t, 1));
  return UNKNOWN;
}

static uint8_t answered_question(void) {
  CALL(rl_lane_row, ROW(uint64_t, 0), N(0), N(1), N(2), ROW(uint64_t, 1));
  CALL(rl_rom_lane_row, ROW(uint64_t, 0), ROW(uint16_t, 1), N(0), N(1), N(2), ROW(uint64_t, 2));
  CALL(rl_held_row, ROW(uint64_t, 0), N(0), ROW(uint64_t, 1));
  CALL(rl_status_row, ROW(uint64_t, 0), N(0), ROW(uint64_t, 1), ROW(uint64_t, 2), ROW(uint64_t, 3), ROW(uint64_t, 4));
  CALL(rl_planner_row, ROW(uint64_t, 0), N(0), ROW(uint32_t, 1), ROW(uint64_t, 2), ROW(uint64_t, 3), ROW(uint64_t, 4),
       ROW(uint64_t, 5));
  CALL(rl_plan_row, N(0), N(1), N(2), N(3), ROW(uint16_t, 0));
  CALL(rl_rom_fill_row, ROW(uint16_t, 0));
  CALL(rl_rom_plan_row, ROW(uint16_t, 0), N(0), N(1), N(2), N(3), ROW(uint16_t, 1));
  CALL(rl_skip_plan_row, N(0), N(1), ROW(uint16_t, 0));
  CALL(rl_share_row, N(0), ROW(uint32_t, 0), ROW(uint32_t, 1), ROW(uint32_t, 2), ROW(uint32_t, 3), ROW(uint32_t, 4));
  return answered_event();
}

static uint8_t answered(void) {
  CALL(rl_write_row, ROW(uint64_t, 0), ROW(uint8_t, 1), ROW(uint64_t, 2));
  CALL(rl_read_row, ROW(uint8_t, 0), ROW(uint64_t, 1));
  CALL(rl_next_row, ROW(uint8_t, 0), ROW(uint64_t, 1), ROW(uint64_t, 2));
  CALL(rl_waits_row, N(0), N(1), ROW(uint8_t, 0), ROW(uint64_t, 1), ROW(uint64_t, 2));
  CALL(rl_air_row, N(0), N(1), ROW(uint8_t, 0), ROW(uint16_t, 1), ROW(uint16_t, 2), ROW(uint64_t, 3));
  CALL(rl_admissions_row, N(0), N(1), ROW(uint8_t, 0), ROW(uint8_t, 1));
  CALL(rl_salvage_row, ROW(uint8_t, 0), ROW(uint8_t, 1), ROW(uint64_t, 2), ROW(uint64_t, 3));
  return answered_question();
}

/* The answer with the bytes of stack below what is left clear here, by the paint that is gone. */
static uint64_t measured(uint64_t *depth) {
  volatile uint64_t *here = (volatile uint64_t *)__builtin_frame_address(0);
  uint64_t answer;
  size_t word;
  for (word = CLEAR; word < PAINTED; word++)
    here[-(long)word] = PAINT;
  answer = answered();
  for (word = PAINTED - 1; word > CLEAR && here[-(long)word] == PAINT; word--)
    ;
  *depth = 8 * (uint64_t)(word - CLEAR);
  return answer;
}

static size_t whole_words(uint64_t bytes) {
  return (size_t)(bytes + 7) / 8;
}

/* Reads a request and lays its rows out; how many words they have, or more than the room where there is no request. */
static size_t request(void) {
  size_t used = 0;
  uint64_t i;
  if (!get(&head, sizeof head) || head.numbers > NUMBERS || head.rows > ROWS)
    return ROOM + 1;
  if (!get(numbers, (size_t)head.numbers * 8) || !get(rows, (size_t)head.rows * sizeof rows[0]))
    return ROOM + 1;
  for (i = 0; i < head.rows; i++) {
    at[i] = room + used;
    if (rows[i].bytes > 8 * (uint64_t)(ROOM - used))
      return ROOM + 1;
    used += whole_words(rows[i].bytes);
  }
  return get(room, 8 * used) ? used : ROOM + 1;
}

static int serve(void) {
  for (;;) {
    uint64_t reply[2] = {0, 0};
    const size_t used = request();
    if (used > ROOM)
      return 0;
    reply[0] = head.measures ? measured(&reply[1]) : answered();
    if (!put(reply, sizeof reply) || !put(room, 8 * used))
      return 1;
  }
}

#if __STDC_HOSTED__
int main(void) {
  return serve();
}
#else
void begin(void);

void begin(void) {
  system_call(60, serve(), NULL, 0);
}

/* Where the program begins: the stack is laid on sixteen bytes, as calls want it. */
__asm__(".globl _start\n_start:\n  xor %ebp, %ebp\n  and $-16, %rsp\n  call begin\n");
#endif
