/* What the header says of lengths, of places in a run, of the order of refusals and of bytes left alone, tried at its edges; no lesson is
 * needed. Each lent buffer ends where a page begins that may not be touched. Exit status 1 at the first that is not so. */
#include "fenced.h"
#include "lending.h"

enum { MOST = 40000 };

/* where each kind of buffer ends */
static uint8_t *setup_end, *message_end, *state_end, *room_end;
static uint8_t sound[WAXGLIMMER_STATE]; /* an open series, M 5, with one order resting */

static const uint8_t call[] = {0x54, 0x50, 0x03, 0x20};        /* exempt, M 5, K 10, strike 200 */
static const uint8_t open_it[WAXGLIMMER_MESSAGE] = {0xb0, 0, 0, 0, 0, 4}; /* phase 1 */

static void fail(const char *what, unsigned long a, unsigned long b) {
  printf("edges: %s, %lu, %lu\n", what, a, b);
  exit(1);
}

/* ---- setups ---- */

static void try_setup(const uint8_t *setup, size_t setup_length, size_t state_length, uint32_t right) {
  uint8_t *state = state_end - state_length;
  memset(state, BLANK, state_length);
  if (waxglimmer_setup(setup, setup_length, state, state_length) != right)
    fail("another answer to a setup", setup_length, state_length);
  if (right != 0 && !blank(state, state_length))
    fail("a refused setup wrote", setup_length, state_length);
}

static void setups(void) {
  static const size_t lengths[] = {0, 1, 28, WAXGLIMMER_STATE - 1, WAXGLIMMER_STATE + 1, 2 * WAXGLIMMER_STATE};
  /* M 2; K 101; strike 0; strike 100,001; the last bits not zero */
  static const uint8_t wrong[][4] = {
      {0x48, 0x50, 3, 0x20}, {0x57, 0x28, 3, 0x20}, {0x54, 0x50, 0, 0}, {0x54, 0x56, 0x1a, 0x84}, {0x54, 0x50, 3, 0x21}};
  for (size_t length = 0; length < 9; length++) {
    const uint8_t *setup = lend(setup_end, call, sizeof call, length);
    try_setup(setup, length, WAXGLIMMER_STATE, length == WAXGLIMMER_SETUP ? 0 : 1);
    for (size_t i = 0; i < sizeof lengths / sizeof *lengths; i++)
      try_setup(setup, length, lengths[i], length == WAXGLIMMER_SETUP ? 11 : 1);
  }
  for (size_t i = 0; i < sizeof wrong / sizeof *wrong; i++) {
    const uint8_t *setup = lend(setup_end, wrong[i], WAXGLIMMER_SETUP, WAXGLIMMER_SETUP);
    try_setup(setup, WAXGLIMMER_SETUP, WAXGLIMMER_STATE, 1);
    try_setup(setup, WAXGLIMMER_SETUP, WAXGLIMMER_STATE - 1, 1);
  }
}

/* ---- the handler ---- */

/* one message put to a state; `at` is its place in the run, or -1 for a message alone. On a refusal no lent byte may change. */
static void try_handle(const uint8_t *given, size_t state_length, const uint8_t *run, size_t run_length, size_t at, size_t room_length,
                       uint32_t right) {
  uint8_t *state = lend(state_end, given, WAXGLIMMER_STATE, state_length), *room = room_end - room_length, before[2 * WAXGLIMMER_STATE];
  size_t count = 7;
  memcpy(before, state, state_length);
  memset(room, BLANK, room_length);
  const uint32_t answer = at == (size_t)-1 ? waxglimmer_handle(state, state_length, run, run_length, room, room_length, &count)
                                           : waxglimmer_handle_at(state, state_length, run, run_length, at, room, room_length, &count);
  if (answer != right || count != (right == 0 ? 1 : 0)) /* accepted: noted, one report */
    fail("another answer to a message", run_length, answer);
  if (!blank(room + count * WAXGLIMMER_REPORT, room_length - count * WAXGLIMMER_REPORT))
    fail("a byte of the room beyond the reports was written", run_length, answer);
  if (right != 0 && memcmp(before, state, state_length) != 0)
    fail("a refusal wrote the state", run_length, answer);
}

/* 10, then 11, then 1; and rooms and buffers of other lengths */
static void orders(void) {
  static const uint8_t zero[WAXGLIMMER_STATE];
  const uint8_t *right = lend(message_end, open_it, sizeof open_it, sizeof open_it);
  for (int alone = 0; alone < 2; alone++) {
    const size_t at = alone ? (size_t)-1 : 0;
    try_handle(zero, WAXGLIMMER_STATE, message_end, 0, at, WAXGLIMMER_ROOM - 1, 10);
    try_handle(zero, WAXGLIMMER_STATE, message_end, 0, at, 0, 10);
    try_handle(sound, WAXGLIMMER_STATE - 1, right, WAXGLIMMER_MESSAGE, at, WAXGLIMMER_ROOM - 1, 10);
    try_handle(zero, WAXGLIMMER_STATE, message_end, 0, at, WAXGLIMMER_ROOM, 11);
    try_handle(sound, WAXGLIMMER_STATE - 1, right, WAXGLIMMER_MESSAGE, at, WAXGLIMMER_ROOM, 11);
    try_handle(sound, WAXGLIMMER_STATE + 1, right, WAXGLIMMER_MESSAGE, at, WAXGLIMMER_ROOM, 11);
    try_handle(sound, 0, right, WAXGLIMMER_MESSAGE, at, WAXGLIMMER_ROOM, 11);
    try_handle(sound, WAXGLIMMER_STATE, message_end, 0, at, WAXGLIMMER_ROOM, 1); /* how a stored state is tried */
    try_handle(sound, WAXGLIMMER_STATE, right, WAXGLIMMER_MESSAGE, at, WAXGLIMMER_ROOM - 1, 10);
    try_handle(sound, WAXGLIMMER_STATE, right, WAXGLIMMER_MESSAGE, at, WAXGLIMMER_ROOM, 0);
    try_handle(sound, WAXGLIMMER_STATE, right, WAXGLIMMER_MESSAGE, at, MOST, 0);
  }
}

/* byte strings of every length up to three messages, each as one message and as a run. No message begins within another here: there every
 * byte but the first has kind 0. */
static void lengths(void) {
  uint8_t three[3 * WAXGLIMMER_MESSAGE];
  for (size_t i = 0; i < 3; i++)
    memcpy(three + i * WAXGLIMMER_MESSAGE, open_it, sizeof open_it);
  for (size_t length = 0; length <= sizeof three; length++) {
    const uint8_t *run = lend(message_end, three, sizeof three, length);
    const uint32_t right = length == WAXGLIMMER_MESSAGE ? 0 : 1;
    if (waxglimmer_is_message(run, length) != right || waxglimmer_check(run, length, 5) != right)
      fail("another answer to a length", length, right);
    try_handle(sound, WAXGLIMMER_STATE, run, length, (size_t)-1, WAXGLIMMER_ROOM, right);
    for (size_t i = 0; i < 50; i++) {
      const size_t at = i < 45 ? i : (size_t)-2 - 3 * (i - 45); /* within, behind, and far behind */
      const uint32_t there = at < length && length - at >= WAXGLIMMER_MESSAGE && at % WAXGLIMMER_MESSAGE == 0 ? 0 : 1;
      if (waxglimmer_is_message_at(run, length, at) != there || waxglimmer_check_at(run, length, at, 5) != there)
        fail("another answer to a place", length, at);
      try_handle(sound, WAXGLIMMER_STATE, run, length, at, WAXGLIMMER_ROOM, there);
    }
  }
}

/* ---- the checks ---- */

static void checks(void) {
  /* kind, party, side, price, quantity, m, answer */
  static const uint32_t table[][7] = {
      {5, 20, 0, 15, 1, 1, 0},     {5, 20, 0, 15, 1, 5, 0},       {5, 20, 0, 305, 1, 5, 3},    {5, 20, 0, 16, 1, 5, 3},   {5, 20, 0, 0, 1, 1, 3},
      {5, 20, 1, 100000, 1, 5, 0},  {5, 20, 1, 100005, 1, 1, 3},  {1, 16, 1, 310, 1, 5, 0},    {1, 17, 1, 20, 1, 5, 2},   {5, 99, 0, 20, 1, 5, 0},
      {5, 100, 0, 16, 0, 5, 2},    {5, 0, 0, 20, 1, 5, 2},        {5, 99, 0, 16, 0, 5, 3},     {5, 99, 0, 20, 0, 5, 4},   {5, 99, 0, 20, 99999, 5, 0},
      {5, 99, 0, 20, 100000, 5, 4}, {11, 0, 0, 0, 2, 5, 0},       {11, 0, 0, 0, 3, 5, 4},      {11, 0, 1, 0, 3, 5, 1},    {10, 0, 0, 99999, 0, 5, 0},
      {13, 0, 0, 0, 0, 5, 1},      {0, 0, 0, 0, 0, 5, 1},         {12, 17, 0, 0, 0, 5, 2},     {8, 17, 0, 0, 0, 5, 2},    {7, 99, 0, 0, 0, 5, 0}};
  uint8_t *message = message_end - WAXGLIMMER_MESSAGE;
  for (size_t i = 0; i < sizeof table / sizeof *table; i++) {
    const uint32_t *row = table[i];
    pack(message, row[0], row[1], row[2], row[3], row[4]);
    if (waxglimmer_check(message, WAXGLIMMER_MESSAGE, row[5]) != row[6] || waxglimmer_check_at(message, WAXGLIMMER_MESSAGE, 0, row[5]) != row[6])
      fail("another answer to a check", i, row[6]);
    for (uint32_t m = 0; m < 300; m++)
      if (m != 1 && m != 5)
        if (waxglimmer_check(message, WAXGLIMMER_MESSAGE, m) != 11 || waxglimmer_check_at(message, WAXGLIMMER_MESSAGE, 1, m) != 11)
          fail("a check took another M", i, m);
  }
}

int main(void) {
  size_t count;
  setup_end = fenced_end(100);
  message_end = fenced_end(100);
  state_end = fenced_end(2 * WAXGLIMMER_STATE);
  room_end = fenced_end(MOST);
  setups();
  uint8_t *message = message_end - WAXGLIMMER_MESSAGE, *room = room_end - WAXGLIMMER_ROOM;
  uint32_t refused = waxglimmer_setup(call, sizeof call, sound, sizeof sound);
  refused |= waxglimmer_handle(sound, sizeof sound, open_it, sizeof open_it, room, WAXGLIMMER_ROOM, &count);
  pack(message, 5, 20, 0, 100, 7);
  refused |= waxglimmer_handle(sound, sizeof sound, message, WAXGLIMMER_MESSAGE, room, WAXGLIMMER_ROOM, &count);
  if (refused != 0)
    fail("no series", refused, 0);
  orders();
  lengths();
  checks();
  return 0;
}
