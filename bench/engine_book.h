/* The engine's bytes, prices and book: part of engine.c, so that the compiler sees it whole. */
#ifndef ENGINE_BOOK_H
#define ENGINE_BOOK_H
#include "engine.h"
#include <string.h>

/* ---- bytes ---- */

static uint64_t load(const uint8_t *p, int n) {
  uint64_t x = 0;
  for (int i = 0; i < n; i++) x = x << 8 | p[i];
  return x;
}

typedef struct {
  uint32_t kind, party, sell, price, quantity, second, entry;
} Ask;

/* fields from the top of 88 bits: kind 4, party 7, side 1, price 17, quantity 17, second 17, entry 20, five zero bits */
static int unpack(const uint8_t *p, Ask *a) {
  uint64_t high = load(p, 8), low = load(p + 8, 3);
  a->kind = high >> 60;
  a->party = high >> 53 & 127;
  a->sell = high >> 52 & 1;
  a->price = high >> 35 & 131071;
  a->quantity = high >> 18 & 131071;
  a->second = high >> 1 & 131071;
  a->entry = (high & 1) << 19 | low >> 5;
  if (low & 31) return 0;
  switch (a->kind) {
    case 1: case 2: case 3: case 4: case 5: case 6: return !(a->second | a->entry);
    case 7: return !(a->sell | a->price | a->quantity | a->second);
    case 8: return !(a->price | a->quantity | a->second | a->entry);
    case 9: return !(a->party | a->sell | a->quantity | a->entry);
    case 10: return !(a->party | a->sell | a->quantity | a->second | a->entry);
    case 11: return !(a->party | a->sell | a->price | a->second | a->entry);
    case 12: return !(a->sell | a->price | a->quantity | a->second | a->entry);
    default: return 0;
  }
}

typedef struct {
  uint8_t *at;
  size_t count;
} Out;

/* kind 3 bits, reason 5, side 1, party 7, entry 20, other 20, price 17, second 17, quantity 17, five zero bits */
static void report(Out *o, uint64_t kind, uint64_t reason, uint64_t sell, uint64_t party, uint64_t entry, uint64_t other, uint64_t price,
                   uint64_t second, uint64_t quantity) {
  uint64_t high = kind << 61 | reason << 56 | sell << 55 | party << 48 | entry << 28 | other << 8 | price >> 9;
  uint64_t low = (price & 511) << 39 | second << 22 | quantity << 5;
  uint8_t *p = o->at;
  for (int i = 0; i < 8; i++) p[i] = high >> (56 - 8 * i);
  for (int i = 0; i < 6; i++) p[8 + i] = low >> (40 - 8 * i);
  o->at += REPORT;
  o->count++;
}

/* ---- prices ---- */

/* M 1 names the steps 1 and 5, M 5 the steps 5 and 10: the small one below CHANGE, the large one from it on */
enum { CHANGE = 300 };
static int is_pair(uint32_t m) { return m == 1 || m == 5; }
static uint32_t large(uint32_t m) { return m == 1 ? 5 : 10; }
static int on_grid(uint32_t m, uint32_t p) { return p < CHANGE ? m == 1 || p % 5 == 0 : m == 1 ? p % 5 == 0 : p % 10 == 0; }
/* how many steps lead from 0 to p */
static uint32_t steps_to(uint32_t m, uint32_t p) {
  if (m == 1) return p <= CHANGE ? p : CHANGE + (p - CHANGE) / 5;
  return p <= CHANGE ? p / 5 : CHANGE / 5 + (p - CHANGE) / 10;
}
static int legal(uint32_t m, uint32_t p) { return m <= p && p <= 100000 && on_grid(m, p); }
static int given(uint32_t m, uint32_t p) { return p == 0 || legal(m, p); }
static int is_quote(const Entry *e) { return e->kind <= 4; }
static int slides(uint32_t kind) { return kind == 3 || kind == 4; }
/* a is at least as aggressive as b */
static int reaches(int sell, int64_t a, int64_t b) { return sell ? a <= b : a >= b; }
static int64_t keener(int sell, int64_t a, int64_t b) { return reaches(sell, a, b) ? a : b; }
static int64_t meeker(int sell, int64_t a, int64_t b) { return reaches(sell, a, b) ? b : a; }
/* one step less aggressive */
static int64_t back(int sell, int64_t p, uint32_t m) { return sell ? p + (p < CHANGE ? m : large(m)) : p - (p <= CHANGE ? m : large(m)); }
static uint32_t away(const Series *s, int sell) { return sell ? s->bid : s->offer; }
static int shown(const Entry *e) { return e->pricing == FIXED || (e->pricing == SLIDING && e->display == e->working); }
static uint32_t display(const Entry *e) { return e->pricing == FIXED ? e->limit : e->display; }

typedef struct {
  int64_t display, working;
} Aims;

static Aims aims(uint32_t kind, int sell, int64_t limit, int64_t a, int64_t c, uint32_t m) {
  Aims r = {limit, limit};
  if (a) {
    r.display = meeker(sell, r.display, back(sell, a, m));
    r.working = meeker(sell, r.working, a);
  }
  if (kind == 3 && c) {
    r.display = meeker(sell, r.display, back(sell, c, m));
    r.working = meeker(sell, r.working, back(sell, c, m));
  }
  return r;
}

/* ---- the book ---- */

static uint32_t best_working(const Series *s, int sell) { /* of the entries on this side */
  uint32_t best = 0;
  for (uint32_t i = 0; i < s->count; i++) {
    const Entry *e = &s->entries[i];
    if (e->sell == sell && (!best || reaches(sell, e->working, best))) best = e->working;
  }
  return best;
}

static uint32_t national(const Series *s, int sell) { /* what a quote of this side faces */
  uint32_t best = away(s, sell);
  for (uint32_t i = 0; i < s->count; i++) {
    const Entry *e = &s->entries[i];
    if (e->sell == sell || e->pricing == DARK) continue;
    uint32_t d = display(e);
    if (!best || (sell ? d > best : d < best)) best = d;
  }
  return best;
}

static void take_out(Series *s, uint32_t i) {
  s->count--;
  memmove(&s->entries[i], &s->entries[i + 1], (s->count - i) * sizeof(Entry));
  memset(&s->entries[s->count], 0, sizeof(Entry));
}

static void reprice(Series *s, uint32_t i, uint32_t shows, uint32_t works, Out *o) {
  Entry e = s->entries[i];
  e.display = shows;
  e.working = works;
  memmove(&s->entries[i], &s->entries[i + 1], (s->count - 1 - i) * sizeof(Entry));
  s->entries[s->count - 1] = e;
  report(o, 5, 0, e.sell, e.party, e.number, 0, e.display, e.working, e.quantity);
}

static void cancel(Series *s, uint32_t i, uint32_t why, Out *o) {
  const Entry *e = &s->entries[i];
  report(o, 6, why, e->sell, e->party, e->number, 0, e->limit, 0, e->quantity);
  take_out(s, i);
}

static int quote_of(const Series *s, uint32_t party, int sell) {
  for (uint32_t i = 0; i < s->count; i++) {
    const Entry *e = &s->entries[i];
    if (e->party == party && e->sell == sell && is_quote(e)) return i;
  }
  return -1;
}

static int best_contra(const Series *s, int sell, int shown_only) {
  int best = -1, best_shown = 0;
  uint32_t price = 0;
  for (uint32_t i = 0; i < s->count; i++) {
    const Entry *e = &s->entries[i];
    if (e->sell == sell) continue;
    int seen = shown(e);
    if (shown_only && !seen) continue;
    if (best < 0 || (sell ? e->working > price : e->working < price) || (e->working == price && seen && !best_shown)) {
      best = i;
      price = e->working;
      best_shown = seen;
    }
  }
  return best;
}

/* lowers the entry at a rank; answers whether it is gone */
static int lower(Series *s, uint32_t i, uint32_t quantity) {
  s->entries[i].quantity -= quantity;
  if (s->entries[i].quantity) return 0;
  take_out(s, i);
  return 1;
}

#endif
