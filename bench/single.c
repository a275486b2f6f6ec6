/* Times of single messages of one stream, of which it takes the first 30,000. Prints columns of a table:

     single FILE ROUNDS         the slowest message, ns: proved, engine; through the library for C, ns a message
     single FILE ROUNDS KIND    of some messages whose first report is of this kind: reports a message, ns proved, ns engine, ratio

   The library for C (crate server) unpacks the series from a buffer before each message and packs it again; unless it answers every message
   as the engine does, this fails. */
#define _DEFAULT_SOURCE
#include "../c/waxglimmer.h"
#include "players.h"
#include <signal.h>
#include <string.h>
#include <sys/mman.h>

enum { MOST = 30000, SPACE = 1 << 26, PAGE = 4096, SOME = 4 };

static uint8_t *stream, *out, *page, kinds[MOST], state[WAXGLIMMER_STATE], rooms[2][ROOM];
static uint16_t written[MOST];
static uint32_t best[2][MOST]; /* of each message the shortest time in any round of clocked(), in ns */
static size_t messages, length;
static Series series;

/* ---- one message alone ---- */

static volatile uint64_t touched;

static void on_touch(int signal) {
  (void)signal;
  mprotect(page, PAGE, PROT_READ | PROT_WRITE);
  touched = now();
}

/* The run up to message i, then one that is refused and changes nothing (eleven zeros), then, or not, message i. The refused one lies on a
   page that may not be read: the fault at its first byte starts the clock, and the end of the run stops it. */
static uint64_t behind_touch(int which, size_t i, int with) {
  struct sigaction act;
  memset(&act, 0, sizeof act);
  act.sa_handler = on_touch;
  act.sa_flags = (int)SA_RESETHAND; /* another fault is a true one */
  sigaction(SIGSEGV, &act, NULL);
  memcpy(page - i * MESSAGE, stream + 4, i * MESSAGE);
  memset(page, 0, MESSAGE);
  memcpy(page + MESSAGE, stream + 4 + i * MESSAGE, MESSAGE);
  touched = 0;
  mprotect(page, PAGE, PROT_NONE);
  players[which](stream, 4, page - i * MESSAGE, (i + 1 + with) * MESSAGE, out, SPACE);
  const uint64_t end = now();
  if (!touched) exit(3);
  return end - touched;
}

/* the time that message i takes: with it, less without it, each the best of the rounds */
static double alone(int which, size_t i, int rounds) {
  uint64_t least[2] = {UINT64_MAX, UINT64_MAX};
  for (int round = 0; round < rounds; round++)
    for (int with = 0; with < 2; with++) {
      const uint64_t time = behind_touch(which, i, with);
      if (time < least[with]) least[with] = time;
    }
  return (double)least[1] - (double)least[0];
}

/* ---- message by message ---- */

static void start(void) {
  if (engine_setup(&series, stream, 4) || waxglimmer_setup(stream, 4, state, sizeof state)) exit(2);
}

static uint32_t answer(int which, size_t i, size_t *count) {
  const size_t at = 4 + i * MESSAGE;
  if (which == ENGINE) return engine_handle(&series, stream + at, MESSAGE, rooms[ENGINE], ROOM, count);
  return waxglimmer_handle_at(state, sizeof state, stream, length, at, rooms[PROVED], ROOM, count);
}

static void compare(void) {
  start();
  for (size_t i = 0; i < messages; i++) {
    size_t count, other;
    if (answer(PROVED, i, &count) != answer(ENGINE, i, &other) || count != other || memcmp(rooms[PROVED], rooms[ENGINE], count * REPORT)) {
      fprintf(stderr, "single: the answers to message %zu differ\n", i + 1);
      exit(1);
    }
    written[i] = count;
    kinds[i] = count ? rooms[PROVED][0] >> 5 : 0;
  }
}

/* a round of the library with no clock within it */
static uint64_t whole(void) {
  size_t count;
  start();
  const uint64_t from = now();
  for (size_t i = 0; i < messages; i++) answer(PROVED, i, &count);
  return now() - from;
}

/* a round with the clock read about every message */
static void clocked(int which) {
  size_t count;
  start();
  for (size_t i = 0; i < messages; i++) {
    const uint64_t from = now();
    answer(which, i, &count);
    const uint64_t time = now() - from;
    if (time < best[which][i]) best[which][i] = time;
  }
}

/* Of the messages whose best time by the clock is longest, some are measured alone: the slowest of these. An interrupt falls on another
   message in each round, so that no best time has one in it, but for chance. */
static double slowest(int which, int rounds) {
  double most = 0;
  for (int k = 0; k < SOME; k++) {
    size_t at = 0;
    for (size_t i = 0; i < messages; i++)
      if (best[which][i] > best[which][at]) at = i;
    best[which][at] = 0;
    const double time = alone(which, at, 4 * rounds);
    if (time > most) most = time;
  }
  return most;
}

static void print_slowest(int rounds) {
  uint64_t least = UINT64_MAX;
  memset(best, 255, sizeof best);
  for (int round = 0; round < rounds; round++) {
    const uint64_t time = whole();
    if (time < least) least = time;
    for (int which = 0; which < 2; which++) clocked(which);
  }
  const double proved = slowest(PROVED, rounds), engine = slowest(ENGINE, rounds);
  printf(" %.0f, %.0f | %.0f |\n", proved, engine, (double)least / messages);
}

/* the last messages of the kind */
static void print_kind(int kind, int rounds) {
  double sum[2] = {0, 0}, reports = 0;
  int counted = 0;
  for (size_t i = messages; i-- > 0 && counted < SOME;) {
    if (kinds[i] != kind) continue;
    counted++;
    reports += written[i];
    for (int which = 0; which < 2; which++) sum[which] += alone(which, i, 4 * rounds);
  }
  printf(" %.2f | %.0f | %.0f | %.2f |\n", reports / counted, sum[PROVED] / counted, sum[ENGINE] / counted, sum[PROVED] / sum[ENGINE]);
}

int main(int argc, char **argv) {
  if (argc < 3 || atoi(argv[2]) < 1) return 2;
  stream = malloc(4 + MOST * MESSAGE);
  length = read_stream(argv[1], stream, 4 + MOST * MESSAGE);
  messages = (length - 4) / MESSAGE;
  memset(out = malloc(SPACE), 0, SPACE);
  uint8_t *all = mmap(NULL, MOST * MESSAGE + 2 * PAGE, PROT_READ | PROT_WRITE, MAP_PRIVATE | MAP_ANONYMOUS, -1, 0);
  if (all == MAP_FAILED) return 3;
  page = all + MOST * MESSAGE / PAGE * PAGE + PAGE;
  compare();
  if (argc > 3) print_kind(atoi(argv[3]), atoi(argv[2]));
  else print_slowest(atoi(argv[2]));
}
