/* Writes a stream of messages to standard output: stream NAME COUNT [LESSON or NUMBER]. The engine is played along, so that a cancel can name
   what rests. */
#include "engine.h"
#include <stdio.h>
#include <stdlib.h>
#include <string.h>

static uint64_t seed = 88172645463325252u;
static uint32_t below(uint32_t n) {
  seed ^= seed << 13;
  seed ^= seed >> 7;
  seed ^= seed << 17;
  return (seed >> 11) % n;
}

static Series s;
static uint8_t room[ROOM];

static void put(const uint8_t *b, size_t n) { fwrite(b, 1, n, stdout); }

static void send(uint64_t kind, uint64_t party, uint64_t sell, uint64_t price, uint64_t quantity, uint64_t second, uint64_t entry) {
  uint64_t high = kind << 60 | party << 53 | sell << 52 | price << 35 | quantity << 18 | second << 1 | entry >> 19;
  uint32_t low = (entry & 524287) << 5;
  uint8_t b[MESSAGE];
  size_t count;
  for (int i = 0; i < 8; i++) b[i] = high >> (56 - 8 * i);
  for (int i = 0; i < 3; i++) b[8 + i] = low >> (16 - 8 * i);
  put(b, MESSAGE);
  engine_handle(&s, b, MESSAGE, room, ROOM, &count);
}

static void setup(uint32_t put_, uint32_t exempt, uint32_t m, uint32_t k, uint32_t strike) {
  uint32_t x = put_ << 31 | exempt << 30 | m << 26 | k << 19 | strike << 2;
  uint8_t b[4] = {x >> 24, x >> 16, x >> 8, x};
  put(b, 4);
  engine_setup(&s, b, 4);
}

/* From 300 cents up, where the streams play, M 1 moves by 5 and M 5 by 10. */
enum { STEP = 5 };

/* Depth wanders between 20 and 60: quotes of all kinds, orders, cancels, away moves, now and then an underlying price or an order that sweeps. */
static void realistic(long count) {
  static const uint8_t kinds[] = {1, 1, 2, 3, 3, 4, 4};
  uint32_t mid = 10000, depth = 40;
  setup(0, 1, 1, 100, 20000);
  send(11, 0, 0, 0, 1, 0, 0);
  for (long i = 2; i < count; i++) {
    mid += STEP * (below(3) - 1);
    if (mid < 5000 || mid > 15000) mid = 10000;
    if (below(200) == 0) depth = 20 + below(41);
    uint32_t sell = below(2), r = below(100), off = STEP * (1 + below(60));
    if (s.count > depth && r < 55) {
      const Entry *e = &s.entries[below(s.count)];
      if (e->kind <= 4 && below(2)) send(8, e->party, e->sell, 0, 0, 0, 0);
      else send(7, e->party, 0, 0, 0, 0, e->number);
    } else if (r < 50) {
      send(kinds[below(7)], 1 + below(16), sell, sell ? mid + off : mid - off, 1 + below(50), 0, 0);
    } else if (r < 75) {
      send(below(4) ? 5 : 6, 17 + below(83), sell, sell ? mid + off : mid - off, 1 + below(40), 0, 0);
    } else if (r < 80) {
      send(5, 17 + below(83), sell, sell ? mid - off : mid + off, 1 + below(60), 0, 0);
    } else if (r < 97) {
      send(9, 0, 0, below(20) ? mid - STEP * (1 + below(60)) : 0, 0, below(20) ? mid + STEP * (1 + below(60)) : 0, 0);
    } else if (r < 98) {
      send(10, 0, 0, mid, 0, 0, 0);
    } else {
      send(12, 1 + below(16), 0, 0, 0, 0, 0);
    }
    if (s.given > 990000) break;
  }
}

/* Messages that are all refused, in a book of 40 */
static void refusals(long count) {
  setup(0, 1, 5, 100, 20000);
  send(11, 0, 0, 0, 1, 0, 0);
  for (int i = 0; i < 40; i++) send(5, 20, i & 1, i & 1 ? 10000 + 10 * i : 9000 - 10 * i, 7, 0, 0);
  for (long i = 42; i < count; i++) {
    switch (below(6)) {
      case 0: send(13 + below(3), 1, 0, 100, 1, 0, 0); break;
      case 1: send(1, 17, 0, 100, 1, 0, 0); break;
      case 2: send(5, 20, 0, 101, 1, 0, 0); break;
      case 3: send(5, 20, 0, 100, 0, 0, 0); break;
      case 4: send(7, 20, 0, 0, 0, 0, 1000 + below(5000)); break;
      default: send(8, 3, below(2), 0, 0, 0, 0); break;
    }
  }
}

/* A lesson again and again, closed behind each time */
static void again(long count, const char *path) {
  static uint8_t lesson[1 << 16];
  FILE *file = fopen(path, "rb");
  if (!file) exit(2);
  size_t length = fread(lesson, 1, sizeof lesson, file);
  put(lesson, 4);
  for (long sent = 0; sent < count;) {
    for (size_t at = 4; at + MESSAGE <= length; at += MESSAGE, sent++) put(lesson + at, MESSAGE);
    uint8_t close[MESSAGE] = {0xb0};
    put(close, MESSAGE);
    sent++;
  }
}

/* A book that stays at a depth: away prices that move nothing, and an order that is cancelled and posted again */
static void depth(long count, uint32_t deep) {
  setup(0, 1, 1, 100, 20000);
  send(11, 0, 0, 0, 1, 0, 0);
  for (uint32_t i = 0; i < deep; i++) send(i % 4 == 3 ? 6 : 5, 20, i & 1, i & 1 ? 10000 + STEP * (1 + i) : 10000 - STEP * (1 + i), 7, 0, 0);
  for (long i = deep + 1; i < count; i += 3) {
    const Entry *e = &s.entries[0];
    send(9, 0, 0, 1 + below(50), 0, 50000 + STEP * below(50), 0);
    uint32_t kind = e->kind, sell = e->sell, limit = e->limit;
    send(7, 20, 0, 0, 0, 0, e->number);
    send(kind, 20, sell, limit, 7, 0, 0);
  }
}

/* Orders far from every other price, until this many entries rest */
static void fill(uint32_t deep) {
  for (uint32_t i = s.count; i < deep; i++) send(5, 20, i & 1, i & 1 ? 15000 + STEP * i : 5000 - STEP * i, 7, 0, 0);
}

/* 64 entries rest, and each message writes so many reports, 32 at most: of the entries all but one fewer are orders that never move, the
   others MMRP quotes on both sides. The away prices (crossed, so that the sides do not meet) move by one step and back: noted, and each
   quote repriced. */
static void reports(long count, uint32_t number) {
  setup(0, 1, 1, 100, 20000);
  send(11, 0, 0, 0, 1, 0, 0);
  send(9, 0, 0, 10500, 0, 9500, 0);
  for (uint32_t i = 0; i + 1 < number; i++) send(4, 1 + i / 2, i & 1, i & 1 ? 10450 : 9550, 7, 0, 0);
  fill(PLACES);
  for (long i = 0; i < count; i++) send(9, 0, 0, 10500 + STEP * !(i & 1), 0, 9500 - STEP * !(i & 1), 0);
}

/* 63 entries rest (at 64 an order would be refused), so many of them sells of one contract, each at its own price: a buy order takes just
   these, and they are posted again */
static void sweeps(long count, uint32_t number) {
  setup(0, 1, 1, 100, 20000);
  send(11, 0, 0, 0, 1, 0, 0);
  fill(PLACES - 1 - number);
  for (long i = 0; i < count; i += number + 1) {
    for (uint32_t j = 1; j <= number; j++) send(5, 20, 1, 10000 + STEP * j, 1, 0, 0);
    send(5, 30, 0, 10000 + STEP * number, number, 0, 0);
  }
}

int main(int argc, char **argv) {
  if (argc < 3) return 2;
  long count = atol(argv[2]);
  if (argc == 4 && !strcmp(argv[1], "again")) return again(count, argv[3]), 0;
  if (argc == 4 && !strcmp(argv[1], "depth")) return depth(count, atoi(argv[3])), 0;
  if (argc == 4 && !strcmp(argv[1], "reports")) return reports(count, atoi(argv[3])), 0;
  if (argc == 4 && !strcmp(argv[1], "sweeps")) return sweeps(count, atoi(argv[3])), 0;
  if (!strcmp(argv[1], "realistic")) realistic(count);
  else if (!strcmp(argv[1], "refusals")) refusals(count);
  else return 2;
}
