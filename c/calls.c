/* The calls that the example does not make. One quote's aims, against answers that document 01 gives or that are worked out by hand from its
 * "Prices an entry has". Then, on the lesson of standard input, each message alone and where it stands in the run: the same answer, the same
 * state and the same reports, no byte of the room beyond them written, nothing at all on a refusal; what the checks without a series
 * foretell; and why each of its reports says what it says. Threads with no more stack than the header asks for play it, in buffers at odd
 * addresses. Exit status 1 at the first that differs. */
#include "waxglimmer.h"

#include <pthread.h>
#include <stdio.h>
#include <stdlib.h>
#include <string.h>

static void fail(const char *what, unsigned long at) {
  printf("calls: %s, at %lu\n", what, at);
  exit(1);
}

/* kind, side, limit, away, contra, m; refusal, display, working */
static const uint32_t aims[][9] = {
    {3, 0, 101, 100, 99, 1, 0, 98, 98},     /* class example a */
    {4, 0, 102, 100, 0, 1, 0, 99, 100},     /* c, d: the sell at 99 is gone */
    {3, 0, 225, 223, 222, 1, 0, 221, 221},  /* e */
    {4, 0, 1, 1, 0, 1, 0, 0, 1},            /* h: an aim one step below the legal prices */
    {4, 0, 225, 220, 222, 1, 0, 219, 220},  /* the session of document 01 */
    {3, 0, 102, 100, 0, 1, 0, 99, 100},     /* an MMALO by the away price alone */
    {3, 1, 95, 100, 101, 1, 0, 102, 102},   /* a's mirror image: the higher of limit, away and contra each one step up */
    {4, 1, 95, 100, 0, 5, 0, 105, 100},     /* c's */
    {4, 1, 100000, 100000, 0, 1, 0, 100005, 100000}, /* one large step above them */
    {4, 1, 100000, 100000, 0, 5, 0, 100010, 100000},
    {4, 0, 310, 300, 0, 1, 0, 299, 300},    /* one step below 300 is 299 or 295, */
    {4, 0, 310, 300, 0, 5, 0, 295, 300},
    {4, 1, 290, 300, 0, 1, 0, 305, 300},    /* one step above it 305 or 310 */
    {4, 1, 290, 300, 0, 5, 0, 310, 300},
    {3, 0, 400, 0, 305, 1, 0, 300, 300},    /* and one step from there leads back */
    {3, 1, 200, 0, 295, 5, 0, 300, 300},
    {3, 0, 50, 0, 0, 5, 0, 50, 50},         /* a missing away or contra price does not bind */
    {2, 0, 50, 0, 0, 5, 1, 0, 0},           /* 1: kind, side, M */
    {3, 2, 50, 0, 0, 5, 1, 0, 0},
    {3, 0, 50, 0, 0, 2, 1, 0, 0},
    {3, 0, 50, 0, 0, 10, 1, 0, 0},
    {3, 2, 0, 0, 0, 5, 1, 0, 0},            /* 1 before 3 */
    {3, 0, 0, 0, 0, 5, 3, 0, 0},            /* 3: limit, away, contra */
    {3, 0, 51, 0, 0, 5, 3, 0, 0},
    {3, 0, 50, 52, 0, 5, 3, 0, 0},
    {4, 1, 50, 0, 100010, 5, 3, 0, 0},
    {4, 0, 301, 0, 0, 1, 3, 0, 0},
    {4, 0, 305, 0, 0, 5, 3, 0, 0},
};

static void try_aims(void) {
  for (size_t i = 0; i < sizeof aims / sizeof *aims; i++) {
    const uint32_t *row = aims[i];
    uint32_t display = 7, working = 7;
    uint32_t answer = waxglimmer_aims(row[0], row[1], row[2], row[3], row[4], row[5], &display, &working);
    if (answer != row[6] || display != row[7] || working != row[8])
      fail("another aim", i);
  }
}

static uint8_t run[1 << 20];
static size_t length;

enum { ROOM = WAXGLIMMER_ROOM + 7, BLANK = 165 };

/* the byte before them puts each buffer at an odd address */
static struct {
  uint8_t odd, one[WAXGLIMMER_STATE], two[WAXGLIMMER_STATE], before[WAXGLIMMER_STATE], kept[WAXGLIMMER_STATE];
  uint8_t first[WAXGLIMMER_ROOM], second[ROOM], third[WAXGLIMMER_ROOM], fourth[ROOM];
} lent;

static size_t count; /* the reports of the message answered last */

/* one message, alone and in the run; what it is answered */
static uint32_t answer_twice(size_t at, size_t left) {
  size_t again = 8;
  count = 7;
  memcpy(lent.before, lent.one, sizeof lent.one);
  memset(lent.first, BLANK, sizeof lent.first);
  memset(lent.second, BLANK, sizeof lent.second);
  const uint32_t alone = waxglimmer_handle(lent.one, sizeof lent.one, run + at, left, lent.first, sizeof lent.first, &count);
  const uint32_t there = waxglimmer_handle_at(lent.two, sizeof lent.two, run, length, at, lent.second, sizeof lent.second, &again);
  if (alone != there || count != again || memcmp(lent.one, lent.two, sizeof lent.one) != 0 ||
      memcmp(lent.first, lent.second, sizeof lent.first) != 0)
    fail("another answer in the run", at);
  if (alone != 0 && (count != 0 || memcmp(lent.one, lent.before, sizeof lent.one) != 0))
    fail("a refusal changed the state", at);
  for (size_t i = count * WAXGLIMMER_REPORT; i < ROOM; i++)
    if (lent.second[i] != BLANK)
      fail("a byte beyond the reports was written", at);
  return alone;
}

/* whether the figures of a rule compare as the header says */
static int compares(uint32_t rule, unsigned sell, uint32_t first, uint32_t second) {
  switch (rule) {
  case 20:
  case 21:
    return sell ? first <= second : first >= second;
  case 22:
    return first > second;
  case 23:
    return sell ? first > second : first < second;
  case 24:
  case 25:
  case 26:
    return first >= second;
  default:
    return first == 0 && second == 0;
  }
}

/* the rule that a report names, 0 for one that is neither a rejection nor a cancellation */
static uint32_t rule_of(const uint8_t *report) {
  const unsigned kind = report[0] >> 5;
  return kind == 2 || kind == 6 ? report[0] & 31 : 0;
}

/* why, alone and in the run, of one place of the message that was answered last; `right` is the answer it must have */
static void why_twice(size_t at, size_t left, size_t place, uint32_t right) {
  uint32_t told[3] = {7, 7, 7}, again[3] = {8, 8, 8};
  memcpy(lent.kept, lent.before, sizeof lent.kept);
  memset(lent.third, BLANK, sizeof lent.third);
  memset(lent.fourth, BLANK, sizeof lent.fourth);
  const uint32_t alone =
      waxglimmer_why(lent.before, sizeof lent.before, run + at, left, place, lent.third, sizeof lent.third, &told[0], &told[1], &told[2]);
  const uint32_t there =
      waxglimmer_why_at(lent.before, sizeof lent.before, run, length, at, place, lent.fourth, sizeof lent.fourth, &again[0], &again[1], &again[2]);
  if (alone != right || there != right || memcmp(told, again, sizeof told) != 0)
    fail("another answer to why", at);
  if (memcmp(lent.before, lent.kept, sizeof lent.kept) != 0)
    fail("why changed the state", at);
  /* the reports of the answer, or a room as it was */
  const size_t reports = right == 0 ? count * WAXGLIMMER_REPORT : 0;
  if (memcmp(lent.third, lent.first, reports) != 0 || memcmp(lent.fourth, lent.first, reports) != 0)
    fail("why left other reports", at);
  for (size_t i = reports; i < ROOM; i++)
    if (lent.fourth[i] != BLANK || (i < WAXGLIMMER_ROOM && lent.third[i] != BLANK))
      fail("why wrote a byte beyond the reports", at);
  const uint8_t *report = lent.first + (right == 0 ? place : 0) * WAXGLIMMER_REPORT;
  const uint32_t rule = right == 0 ? rule_of(report) : 0;
  if (told[0] != rule || !compares(rule, report[1] >> 7, told[1], told[2]))
    fail("another reason", at);
}

/* why of every place, of the one behind the last, and of one far behind */
static void ask_why(size_t at, size_t left, uint32_t answer) {
  for (size_t place = 0; place < count; place++)
    why_twice(at, left, place, 0);
  why_twice(at, left, count, answer != 0 ? answer : 12);
  why_twice(at, left, (size_t)-1, answer != 0 ? answer : 12);
}

/* what the checks without a series say of a message that a series with this m answered so */
static void foretell(size_t at, size_t left, uint32_t m, uint32_t answer) {
  const uint32_t fault = waxglimmer_check(run + at, left, m);
  if (fault != waxglimmer_check_at(run, length, at, m) || (fault != 0 ? fault != answer : answer >= 1 && answer <= 4))
    fail("a check foretells another refusal", at);
  if (waxglimmer_is_message(run + at, left) != (answer == 1) || waxglimmer_is_message_at(run, length, at) != (answer == 1))
    fail("another answer to whether it is a message", at);
}

/* plays the lesson; `asking` is NULL where why is not asked */
static void *play(void *asking) {
  if (waxglimmer_setup(run, length < WAXGLIMMER_SETUP ? length : WAXGLIMMER_SETUP, lent.one, sizeof lent.one) != 0)
    return NULL;
  memcpy(lent.two, lent.one, sizeof lent.two);
  const uint32_t m = lent.one[0]; /* the first byte of a state */
  for (size_t at = WAXGLIMMER_SETUP; at < length; at += WAXGLIMMER_MESSAGE) {
    const size_t left = length - at < WAXGLIMMER_MESSAGE ? length - at : WAXGLIMMER_MESSAGE;
    const uint32_t answer = answer_twice(at, left);
    foretell(at, left, m, answer);
    if (asking != NULL)
      ask_why(at, left, answer);
  }
  return NULL;
}

static void play_with(size_t stack, void *asking) {
  pthread_t thread;
  pthread_attr_t small;
  if (pthread_attr_init(&small) != 0 || pthread_attr_setstacksize(&small, stack) != 0 || pthread_create(&thread, &small, play, asking) != 0 ||
      pthread_join(thread, NULL) != 0)
    fail("no thread with a stack", stack);
}

int main(void) {
  try_aims();
  length = fread(run, 1, sizeof run, stdin);
  play_with(WAXGLIMMER_HANDLING_STACK, NULL);
  play_with(WAXGLIMMER_STACK, &length);
  return 0;
}
