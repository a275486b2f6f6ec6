/* Why, tried by hand; no lesson is needed. Small books whose rule and figures are worked out from document 01's "Arrival"; then what the header
 * says of refusals and their order, of places, lengths and runs, and of bytes left alone. Each lent buffer ends where a page begins that may not
 * be touched, and the state stands in pages that may only be read. Exit status 1 at the first that is not so. */
#include "fenced.h"
#include "lending.h"

enum { MOST = 40000, FAR = 2 * WAXGLIMMER_STATE };

static uint8_t *message_end, *state_end, *room_end;

static void fail(const char *what, unsigned long a, unsigned long b) {
  printf("reasons: %s, %lu, %lu\n", what, a, b);
  exit(1);
}

/* ---- a series made of numbers ---- */

/* put, exempt, M, K, strike */
typedef struct {
  uint32_t put, exempt, m, k, strike;
} Terms;

/* a message: kind, party, side, price, quantity; of kind 9 the quantity is the away offer */
typedef struct {
  uint32_t kind, party, side, price, quantity;
} Said;

static void pack_said(uint8_t *bytes, Said said) {
  const uint32_t away = said.kind == 9;
  pack(bytes, said.kind, said.party, said.side, said.price, away ? 0 : said.quantity);
  if (away) /* the second price: 17 bits from bit 46 on */
    for (unsigned i = 0; i < 17; i++)
      if (said.quantity >> (16 - i) & 1)
        bytes[(46 + i) / 8] |= (uint8_t)(128 >> (46 + i) % 8);
}

/* a new series with these terms, which is closed */
static void new_series(uint8_t *state, Terms t) {
  const uint32_t bits = t.put << 31 | t.exempt << 30 | t.m << 26 | t.k << 19 | t.strike << 2;
  const uint8_t setup[WAXGLIMMER_SETUP] = {(uint8_t)(bits >> 24), (uint8_t)(bits >> 16), (uint8_t)(bits >> 8), (uint8_t)bits};
  if (waxglimmer_setup(setup, sizeof setup, state, WAXGLIMMER_STATE) != 0)
    fail("no series", t.m, t.strike);
}

static uint8_t spare[WAXGLIMMER_ROOM];

static size_t play(uint8_t *state, Said said) {
  uint8_t message[WAXGLIMMER_MESSAGE];
  size_t count;
  pack_said(message, said);
  if (waxglimmer_handle(state, WAXGLIMMER_STATE, message, sizeof message, spare, sizeof spare, &count) != 0)
    fail("a message was refused", said.kind, said.price);
  return count;
}

/* ---- asking ---- */

/* the pages that a state ends in: may they be written? */
static void writable(int may) {
  const size_t page = (size_t)sysconf(_SC_PAGESIZE), pages = (FAR + page - 1) / page;
  if (mprotect(state_end - pages * page, pages * page, may ? PROT_READ | PROT_WRITE : PROT_READ) != 0)
    fail("no pages", page, pages);
}

/* `length` bytes that may only be read */
static const uint8_t *shown_state(const uint8_t *state, size_t length) {
  writable(1);
  uint8_t *lent = lend(state_end, state, WAXGLIMMER_STATE, length);
  writable(0);
  return lent;
}

static const size_t ALONE = (size_t)-1;

static uint32_t told[3];

/* why, of a message alone or at a place of a run: the room must then be blank, or have the reports that handling the message leaves, and rule
 * and figures be 0 on a refusal */
static void ask(const uint8_t *given, size_t state_length, const uint8_t *run, size_t run_length, size_t at, size_t place, size_t room_length,
                uint32_t right) {
  const uint8_t *state = shown_state(given, state_length);
  uint8_t *room = room_end - room_length;
  memset(room, BLANK, room_length);
  for (unsigned i = 0; i < 3; i++)
    told[i] = 7;
  const uint32_t answer =
      at == ALONE
          ? waxglimmer_why(state, state_length, run, run_length, place, room, room_length, &told[0], &told[1], &told[2])
          : waxglimmer_why_at(state, state_length, run, run_length, at, place, room, room_length, &told[0], &told[1], &told[2]);
  if (answer != right)
    fail("another answer", right, answer);
  size_t count = 0;
  if (right != 0 && (told[0] != 0 || told[1] != 0 || told[2] != 0))
    fail("a refusal gave a reason", right, told[0]);
  if (right == 0) {
    uint8_t after[WAXGLIMMER_STATE];
    memcpy(after, given, sizeof after);
    memset(spare, BLANK, sizeof spare);
    const size_t from = at == ALONE ? 0 : at;
    if (waxglimmer_handle(after, sizeof after, run + from, WAXGLIMMER_MESSAGE, spare, sizeof spare, &count) != 0 ||
        memcmp(spare, room, count * WAXGLIMMER_REPORT) != 0)
      fail("other reports", right, count);
  }
  if (!blank(room + count * WAXGLIMMER_REPORT, room_length - count * WAXGLIMMER_REPORT))
    fail("a byte of the room beyond the reports was written", right, count);
}

/* the same both ways; in the run, the message stands between two others */
static void ask_both(const uint8_t *state, const uint8_t *message, size_t place, uint32_t right) {
  uint8_t three[3 * WAXGLIMMER_MESSAGE];
  memset(three, 0xb0, sizeof three);
  memcpy(three + WAXGLIMMER_MESSAGE, message, WAXGLIMMER_MESSAGE);
  ask(state, WAXGLIMMER_STATE, lend(message_end, message, WAXGLIMMER_MESSAGE, WAXGLIMMER_MESSAGE), WAXGLIMMER_MESSAGE, ALONE, place,
      WAXGLIMMER_ROOM, right);
  uint32_t alone[3];
  memcpy(alone, told, sizeof alone);
  ask(state, WAXGLIMMER_STATE, lend(message_end, three, sizeof three, sizeof three), sizeof three, WAXGLIMMER_MESSAGE, place, MOST, right);
  if (memcmp(alone, told, sizeof alone) != 0)
    fail("another reason in the run", alone[0], told[0]);
}

/* ---- reasons worked out by hand ---- */

enum { BUY, SELL };
enum { PLAIN = 1, MMLO, MMALO, MMRP, ORDER, DARK, CANCEL, WITHDRAW, AWAY, UNDERLYING, PHASE, ENABLE };

/* the series, what is said before, the message; then its reports' reasons, each with its place, rule and figures */
typedef struct {
  const char *name;
  Terms terms;
  Said before[6], message;
  uint32_t reasons[4][4];
} Case;

#define FREE {0, 1, 1, 10, 200} /* class examples: M 1, K 10, call, exempt */
#define TIGHT {0, 1, 1, 3, 200} /* K 3 */

static const Case cases[] = {
    /* 20: limit, away offer (bid) */
    {"f: 20 at the away offer", FREE, {{AWAY, 0, 0, 0, 220}}, {PLAIN, 1, BUY, 220, 5}, {{0, 20, 220, 220}}},
    {"20 beyond it, an order", FREE, {{AWAY, 0, 0, 0, 220}}, {ORDER, 20, BUY, 225, 5}, {{0, 20, 225, 220}}},
    {"20 behind a trade", FREE, {{AWAY, 0, 0, 0, 220}, {ORDER, 20, SELL, 218, 5}}, {ORDER, 21, BUY, 225, 9}, {{0, 0, 0, 0}, {1, 20, 225, 220}}},
    {"20, a dark order", FREE, {{AWAY, 0, 0, 0, 220}}, {DARK, 20, BUY, 221, 5}, {{0, 20, 221, 220}}},
    {"20, a sell at the away bid", FREE, {{AWAY, 0, 0, 200, 0}}, {ORDER, 20, SELL, 200, 5}, {{0, 20, 200, 200}}},
    {"20, a sell beyond it, a quote", FREE, {{AWAY, 0, 0, 200, 0}}, {PLAIN, 1, SELL, 150, 5}, {{0, 20, 150, 200}}},
    /* 21: limit, best undisplayed contra working price */
    {"l: 21 behind a trade", FREE, {{DARK, 20, SELL, 221, 10}, {ORDER, 21, SELL, 222, 10}},
     {MMLO, 1, BUY, 222, 20}, {{0, 0, 0, 0}, {1, 21, 222, 221}}},
    {"21, the best of three", FREE, {{DARK, 20, SELL, 221, 9}, {DARK, 21, SELL, 219, 9}, {DARK, 22, SELL, 220, 9}},
     {MMLO, 1, BUY, 222, 5}, {{0, 21, 222, 219}}},
    {"21 by an MMRP that works past its display", FREE, {{AWAY, 0, 0, 100, 0}, {MMRP, 2, SELL, 95, 9}},
     {MMLO, 1, BUY, 100, 5}, {{0, 21, 100, 100}}},
    {"21, a sell", FREE, {{DARK, 20, BUY, 150, 9}, {DARK, 21, BUY, 152, 9}}, {MMLO, 1, SELL, 149, 5}, {{0, 21, 149, 152}}},
    {"20 before 21", FREE, {{AWAY, 0, 0, 0, 220}, {DARK, 20, SELL, 219, 9}}, {MMLO, 1, BUY, 222, 5}, {{0, 20, 222, 220}}},
    /* 22: how many steps the limit lies from the display, K */
    {"b: 22 of an MMALO", TIGHT, {{ORDER, 20, SELL, 99, 1}, {AWAY, 0, 0, 0, 100}}, {MMALO, 1, BUY, 102, 5}, {{0, 22, 4, 3}}},
    {"d: 22 behind a trade", TIGHT, {{ORDER, 20, SELL, 99, 1}, {AWAY, 0, 0, 0, 100}}, {MMRP, 1, BUY, 103, 2}, {{0, 0, 0, 0}, {1, 22, 4, 3}}},
    {"22 in steps", {0, 1, 5, 2, 200}, {{DARK, 20, SELL, 100, 5}}, {MMALO, 1, BUY, 110, 5}, {{0, 22, 3, 2}}},
    {"22 across 300", {0, 1, 1, 3, 200}, {{AWAY, 0, 0, 0, 300}}, {MMRP, 1, BUY, 315, 5}, {{0, 22, 4, 3}}},
    {"22 across 300, a sell", {0, 1, 5, 3, 200}, {{AWAY, 0, 0, 300, 0}}, {MMRP, 1, SELL, 285, 5}, {{0, 22, 4, 3}}},
    {"22, a sell", TIGHT, {{ORDER, 20, BUY, 101, 5}, {AWAY, 0, 0, 100, 0}}, {MMALO, 1, SELL, 98, 5}, {{0, 22, 4, 3}}},
    {"22, a sell by the away bid", {0, 1, 5, 0, 200}, {{AWAY, 0, 0, 150, 0}}, {MMRP, 1, SELL, 100, 5}, {{0, 22, 11, 0}}},
    /* 23: the display, the small step (sell: 100,000) */
    {"h: 23", FREE, {{AWAY, 0, 0, 0, 1}}, {MMRP, 1, BUY, 1, 5}, {{0, 23, 0, 1}}},
    {"23 at M 5", {0, 1, 5, 10, 200}, {{ORDER, 20, SELL, 5, 5}}, {MMALO, 1, BUY, 5, 5}, {{0, 23, 0, 5}}},
    {"23, a sell", {0, 1, 5, 10, 200}, {{AWAY, 0, 0, 100000, 0}}, {MMRP, 1, SELL, 100000, 5}, {{0, 23, 100010, 100000}}},
    {"23 before 22", {0, 1, 1, 0, 200}, {{AWAY, 0, 0, 0, 1}}, {MMRP, 1, BUY, 1, 5}, {{0, 23, 0, 1}}},
    /* 24: bid, NBO + 100, or twice (bid - NBO), NBO (sell: twice (NBB - offer), NBB) */
    {"i: 24, NBO 100", FREE, {{AWAY, 0, 0, 0, 100}}, {PLAIN, 1, BUY, 200, 5}, {{0, 24, 200, 200}}},
    {"24, NBO 100, beyond", FREE, {{AWAY, 0, 0, 0, 100}}, {MMRP, 1, BUY, 250, 5}, {{0, 24, 250, 200}}},
    {"j: 24, NBO 101", FREE, {{AWAY, 0, 0, 0, 101}}, {PLAIN, 1, BUY, 152, 5}, {{0, 24, 102, 101}}},
    {"24, an offer", FREE, {{AWAY, 0, 0, 200, 0}}, {PLAIN, 1, SELL, 100, 5}, {{0, 24, 200, 200}}},
    {"24 by the best displayed price", FREE, {{AWAY, 0, 0, 150, 0}, {ORDER, 20, BUY, 200, 5}, {DARK, 21, BUY, 210, 5}},
     {PLAIN, 1, SELL, 90, 5}, {{0, 24, 220, 200}}},
    /* the MMRP sell at 95 works at 100 and displays 101: NBO is 101 */
    {"24 by a sliding entry's display", FREE, {{AWAY, 0, 0, 100, 0}, {MMRP, 2, SELL, 95, 9}}, {PLAIN, 1, BUY, 160, 5}, {{0, 24, 118, 101}}},
    /* 25: bid, underlying; 26: bid, strike; both of the maker's quotes go with 30, which compares nothing */
    {"25", {0, 0, 1, 10, 200}, {{UNDERLYING, 0, 0, 300, 0}}, {PLAIN, 1, BUY, 300, 5}, {{0, 25, 300, 300}}},
    {"25 before 24", {0, 0, 1, 10, 200}, {{UNDERLYING, 0, 0, 301, 0}, {AWAY, 0, 0, 0, 100}}, {PLAIN, 1, BUY, 305, 5}, {{0, 25, 305, 301}}},
    {"k: 26", {1, 0, 1, 10, 200}, {{0, 0, 0, 0, 0}}, {PLAIN, 1, BUY, 200, 5}, {{0, 26, 200, 200}}},
    {"26 and both quotes", {1, 0, 1, 10, 200}, {{PLAIN, 1, BUY, 90, 5}, {PLAIN, 1, SELL, 110, 5}},
     {PLAIN, 1, BUY, 205, 5}, {{0, 26, 205, 200}, {1, 30, 0, 0}, {2, 30, 0, 0}}},
    /* 27 to 31, and nothing to give */
    {"27 and rested", FREE, {{PLAIN, 1, BUY, 90, 5}}, {PLAIN, 1, BUY, 91, 5}, {{0, 27, 0, 0}, {1, 0, 0, 0}}},
    {"27 before the stop of what replaces it", FREE,
     {{ORDER, 20, SELL, 218, 1}, {PLAIN, 1, BUY, 90, 5}, {PLAIN, 1, SELL, 230, 5}, {AWAY, 0, 0, 0, 220}},
     {PLAIN, 1, BUY, 225, 5}, {{0, 27, 0, 0}, {1, 0, 0, 0}, {2, 20, 225, 220}, {3, 29, 0, 0}}},
    {"20 and 30", FREE, {{PLAIN, 1, BUY, 90, 5}, {AWAY, 0, 0, 0, 220}}, {PLAIN, 1, BUY, 220, 5}, {{0, 20, 220, 220}, {1, 30, 0, 0}}},
    {"28", FREE, {{PLAIN, 1, BUY, 90, 5}}, {WITHDRAW, 1, BUY, 0, 0}, {{0, 28, 0, 0}}},
    {"noted and 31", FREE, {{PLAIN, 1, BUY, 90, 5}, {ORDER, 20, SELL, 110, 5}}, {PHASE, 0, 0, 0, 0}, {{0, 0, 0, 0}, {1, 31, 0, 0}, {2, 31, 0, 0}}},
    {"noted and repriced", FREE, {{AWAY, 0, 0, 0, 100}, {MMRP, 1, BUY, 102, 5}}, {AWAY, 0, 0, 0, 101}, {{0, 0, 0, 0}, {1, 0, 0, 0}}},
};

static void reasons(void) {
  static uint8_t state[WAXGLIMMER_STATE];
  uint8_t message[WAXGLIMMER_MESSAGE];
  for (size_t i = 0; i < sizeof cases / sizeof *cases; i++) {
    const Case *c = &cases[i];
    new_series(state, c->terms);
    play(state, (Said){PHASE, 0, 0, 0, 1});
    for (size_t j = 0; j < 6 && c->before[j].kind != 0; j++)
      play(state, c->before[j]);
    pack_said(message, c->message);
    uint8_t after[WAXGLIMMER_STATE];
    memcpy(after, state, sizeof after);
    const size_t count = play(after, c->message);
    if (count > 4 || (count < 4 && c->reasons[count][0] != 0))
      fail("another count of reports", i, count);
    for (size_t place = 0; place < count; place++) {
      ask_both(state, message, place, 0);
      const uint32_t *right = c->reasons[place];
      if (right[0] != place || told[0] != right[1] || told[1] != right[2] || told[2] != right[3]) {
        printf("reasons: %s: told %u with %u and %u\n", c->name, (unsigned)told[0], (unsigned)told[1], (unsigned)told[2]);
        fail("another reason", i, place);
      }
    }
    ask_both(state, message, count, 12);
    ask_both(state, message, (size_t)-1, 12);
  }
}

/* ---- refusals, in their order ---- */

static const Terms five = {0, 1, 5, 10, 200}; /* M 5 */
static uint8_t sound[WAXGLIMMER_STATE], edited[WAXGLIMMER_STATE];

/* a message's own refusal, at places that are beyond every count */
static void refused(const uint8_t *state, Said said, uint32_t right) {
  uint8_t message[WAXGLIMMER_MESSAGE];
  pack_said(message, said);
  ask_both(state, message, 0, right);
  ask_both(state, message, 1, right);
  ask_both(state, message, (size_t)-1, right);
}

/* 12 comes behind each of the handler's own */
static void own_first(void) {
  refused(sound, (Said){13, 0, 0, 0, 0}, 1);
  refused(sound, (Said){ORDER, 0, BUY, 101, 0}, 2);
  refused(sound, (Said){ORDER, 20, BUY, 101, 0}, 3);
  refused(sound, (Said){ORDER, 20, BUY, 100, 0}, 4);
  refused(sound, (Said){CANCEL, 20, 0, 0, 0}, 8); /* there is no entry 0 */
  refused(sound, (Said){WITHDRAW, 1, BUY, 0, 0}, 8);
  new_series(edited, five);
  refused(edited, (Said){ORDER, 20, BUY, 100, 5}, 5);
  memcpy(edited, sound, sizeof edited);
  edited[26] |= 32; /* maker 3 is blocked */
  refused(edited, (Said){PLAIN, 3, BUY, 100, 5}, 6);
  memcpy(edited, sound, sizeof edited);
  edited[20] = 15, edited[21] = 66, edited[22] = 64; /* entry 1,000,000 is given */
  refused(edited, (Said){ORDER, 20, BUY, 100, 5}, 9);
  memcpy(edited, sound, sizeof edited);
  for (uint32_t i = 1; i < 64; i++)
    play(edited, (Said){ORDER, 20, BUY, 100, 5});
  refused(edited, (Said){ORDER, 20, BUY, 100, 5}, 7);
}

static const uint8_t open_it[WAXGLIMMER_MESSAGE] = {0xb0, 0, 0, 0, 0, 4}; /* phase 1: noted, one report */

/* 10, then 11, then 1, then 12; rooms and buffers of other lengths */
static void orders(void) {
  static const uint8_t zero[WAXGLIMMER_STATE];
  const uint8_t *right = lend(message_end, open_it, sizeof open_it, sizeof open_it);
  const size_t length = WAXGLIMMER_MESSAGE, state = WAXGLIMMER_STATE, room = WAXGLIMMER_ROOM;
  for (int alone = 0; alone < 2; alone++)
    for (size_t i = 0; i < 3; i++) {
      const size_t at = alone ? ALONE : 0, place = i < 2 ? i : (size_t)-1;
      const uint32_t last = place == 0 ? 0 : 12;
      ask(zero, state, message_end, 0, at, place, room - 1, 10);
      ask(zero, state, message_end, 0, at, place, 0, 10);
      ask(sound, state - 1, right, length, at, place, room - 1, 10);
      ask(zero, state, message_end, 0, at, place, room, 11);
      ask(zero, state, right, length, at, place, room, 11);
      ask(sound, state - 1, right, length, at, place, room, 11);
      ask(sound, state + 1, right, length, at, place, room, 11);
      ask(sound, 0, right, length, at, place, room, 11);
      ask(sound, state, message_end, 0, at, place, room, 1);
      ask(sound, state, right, length, at, place, room - 1, 10);
      ask(sound, state, right, length, at, place, room, last);
      ask(sound, state, right, length, at, place, MOST, last);
    }
}

/* byte strings of every length up to three messages, each as one message and as a run: a message that the run cuts off is none */
static void lengths(void) {
  uint8_t three[3 * WAXGLIMMER_MESSAGE];
  for (size_t i = 0; i < 3; i++)
    memcpy(three + i * WAXGLIMMER_MESSAGE, open_it, sizeof open_it);
  for (size_t length = 0; length <= sizeof three; length++) {
    const uint8_t *run = lend(message_end, three, sizeof three, length);
    ask(sound, WAXGLIMMER_STATE, run, length, ALONE, 0, WAXGLIMMER_ROOM, length == WAXGLIMMER_MESSAGE ? 0 : 1);
    for (size_t i = 0; i < 50; i++) {
      const size_t at = i < 45 ? i : (size_t)-2 - 3 * (i - 45); /* within, behind, and far behind */
      const int there = at < length && length - at >= WAXGLIMMER_MESSAGE && at % WAXGLIMMER_MESSAGE == 0;
      ask(sound, WAXGLIMMER_STATE, run, length, at, 0, WAXGLIMMER_ROOM, there ? 0 : 1);
      ask(sound, WAXGLIMMER_STATE, run, length, at, 1, WAXGLIMMER_ROOM, there ? 12 : 1);
    }
  }
}

int main(void) {
  message_end = fenced_end(100);
  state_end = fenced_end(FAR);
  room_end = fenced_end(MOST);
  reasons();
  new_series(sound, five);
  play(sound, (Said){PHASE, 0, 0, 0, 1});
  play(sound, (Said){ORDER, 20, BUY, 100, 7});
  own_first();
  orders();
  lengths();
  return 0;
}
