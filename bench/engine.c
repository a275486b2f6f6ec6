#include "engine_book.h"

int engine_setup(Series *s, const uint8_t *setup, size_t length) {
  memset(s, 0, sizeof *s);
  if (length != 4) return 1;
  uint32_t x = load(setup, 4);
  s->put = x >> 31;
  s->exempt = x >> 30 & 1;
  s->m = x >> 26 & 15;
  s->k = x >> 19 & 127;
  s->strike = x >> 2 & 131071;
  return !(is_pair(s->m) && s->k <= 100 && 1 <= s->strike && s->strike <= 100000 && !(x & 3));
}

/* ---- soundness ---- */

static int sound_entry(const Series *s, const Entry *e) {
  if (e->kind < 1 || e->kind > 6 || e->sell > 1 || !e->number || e->number > s->given) return 0;
  if (!legal(s->m, e->limit) || !e->quantity || e->quantity > 99999) return 0;
  if (!e->party || e->party > (is_quote(e) ? MAKERS : 99)) return 0;
  if (slides(e->kind)) {
    if (e->pricing != SLIDING || !legal(s->m, e->display) || !legal(s->m, e->working)) return 0;
    int near = e->working == e->display || back(e->sell, e->working, s->m) == e->display;
    return near && reaches(e->sell, e->limit, e->working);
  }
  return e->pricing == (e->kind == 6 ? DARK : FIXED) && !e->display && e->working == e->limit;
}

static int sound(const Series *s) {
  static const Entry zero;
  if (!is_pair(s->m) || s->k > 100 || s->strike < 1 || s->strike > 100000 || s->phase > 2) return 0;
  if (!given(s->m, s->bid) || !given(s->m, s->offer) || s->underlying > 100000 || s->given > 1000000 || s->count > PLACES) return 0;
  if (s->phase == 0 && s->count) return 0;
  uint32_t bid = 0, offer = UINT32_MAX, highest = 0, seats = 0, column[PLACES];
  for (uint32_t i = 0; i < s->count; i++) {
    const Entry *e = &s->entries[i];
    if (!sound_entry(s, e)) return 0;
    if (e->number > highest) {
      highest = e->number;
    } else {
      for (uint32_t j = 0; j < i; j++)
        if (column[j] == e->number) return 0;
    }
    column[i] = e->number;
    if (is_quote(e)) {
      uint32_t seat = 1u << (e->party - 1 + 16 * e->sell);
      if (s->phase == 2 || seats & seat) return 0;
      seats |= seat;
    }
    if (e->sell) {
      if (e->working < offer) offer = e->working;
    } else if (e->working > bid) {
      bid = e->working;
    }
  }
  if (bid >= offer) return 0;
  for (uint32_t i = s->count; i < PLACES; i++)
    if (memcmp(&s->entries[i], &zero, sizeof zero)) return 0;
  return 1;
}

/* ---- settling ---- */

static int lowest_easing(const Series *s) {
  int found = -1;
  for (uint32_t i = 0; i < s->count; i++) {
    const Entry *e = &s->entries[i];
    if (e->pricing != SLIDING || e->working == e->display) continue;
    uint32_t a = away(s, e->sell);
    if (!a || reaches(e->sell, a, e->working)) continue;
    if (found < 0 || e->number < s->entries[found].number) found = i;
  }
  return found;
}

static void settle(Series *s, Out *o) {
  for (int i; (i = lowest_easing(s)) >= 0;) {
    const Entry *e = &s->entries[i];
    reprice(s, i, e->display, keener(e->sell, e->display, away(s, e->sell)), o);
  }
  for (;;) {
    int found = -1, marketable = 0;
    Aims to = {0, 0};
    uint32_t best[2] = {best_working(s, 0), best_working(s, 1)};
    for (uint32_t i = 0; i < s->count; i++) {
      const Entry *e = &s->entries[i];
      if (e->pricing != SLIDING || (found >= 0 && e->number > s->entries[found].number)) continue;
      uint32_t c = best[!e->sell];
      Aims a = aims(e->kind, e->sell, e->limit, away(s, e->sell), c, s->m);
      int takes = e->kind == 4 && c && reaches(e->sell, a.working, c);
      a.display = keener(e->sell, e->display, a.display);
      a.working = keener(e->sell, a.display, a.working);
      if (!takes && a.display == e->display && a.working == e->working) continue;
      found = i;
      marketable = takes;
      to = a;
    }
    if (found < 0) return;
    if (!marketable) {
      reprice(s, found, to.display, to.working, o);
      continue;
    }
    Entry taker = s->entries[found];
    int with = best_contra(s, taker.sell, 0);
    Entry rests = s->entries[with];
    uint32_t quantity = taker.quantity < rests.quantity ? taker.quantity : rests.quantity;
    report(o, 3, 0, taker.sell, taker.party, taker.number, rests.number, rests.working, 0, quantity);
    if (lower(s, with, quantity) && with < found) found--;
    lower(s, found, quantity);
  }
}

/* ---- arrival ---- */

static uint32_t protection(const Series *s, int sell, uint32_t limit) {
  if (!sell && !s->exempt) {
    if (!s->put && s->underlying && limit >= s->underlying) return 25;
    if (s->put && limit >= s->strike) return 26;
  }
  uint32_t best = national(s, sell);
  if (!best) return 0;
  if (!sell) {
    if (best <= 100) return limit >= best + 100 ? 24 : 0;
    return limit > best && 2 * (limit - best) >= best ? 24 : 0;
  }
  return best > 100 && limit < best && 2 * (best - limit) >= best ? 24 : 0;
}

/* why what is left of e may not rest; else its prices are set */
static uint32_t stopped(const Series *s, Entry *e) {
  uint32_t a = away(s, e->sell);
  if (!slides(e->kind)) {
    if (a && reaches(e->sell, e->limit, a)) return 20;
    if (e->kind == 2)
      for (uint32_t i = 0; i < s->count; i++) {
        const Entry *x = &s->entries[i];
        if (x->sell != e->sell && !shown(x) && reaches(e->sell, e->limit, x->working)) return 21;
      }
    e->pricing = e->kind == 6 ? DARK : FIXED;
    e->working = e->limit;
    return 0;
  }
  Aims to = aims(e->kind, e->sell, e->limit, a, best_working(s, !e->sell), s->m);
  if (e->sell ? to.display > 100000 : to.display < s->m) return 23;
  uint32_t from = steps_to(s->m, e->sell ? e->limit : to.display), up = steps_to(s->m, e->sell ? to.display : e->limit);
  if (up - from > s->k) return 22;
  e->pricing = SLIDING;
  e->display = to.display;
  e->working = to.working;
  return 0;
}

static int next_trade(const Series *s, const Entry *e) {
  if (e->kind == 3) return -1;
  int i = best_contra(s, e->sell, e->kind == 2);
  if (i < 0) return -1;
  uint32_t p = s->entries[i].working, a = away(s, e->sell);
  return reaches(e->sell, e->limit, p) && (!a || reaches(e->sell, a, p)) ? i : -1;
}

static void reject(Series *s, const Entry *e, uint32_t why, Out *o) {
  report(o, 2, why, e->sell, e->party, e->number, 0, e->limit, 0, e->quantity);
  int both = why == 25 || why == 26;
  for (int sell = 0; sell < 2; sell++) {
    int i = both || sell == e->sell ? quote_of(s, e->party, sell) : -1;
    if (i >= 0) cancel(s, i, 30, o);
  }
  if (both) s->blocked[e->party - 1] = 1;
}

static void arrive(Series *s, Entry e, int replaced, Out *o) {
  uint32_t why = is_quote(&e) ? protection(s, e.sell, e.limit) : 0;
  if (why) return reject(s, &e, why, o);
  int with = next_trade(s, &e);
  if (with < 0) {
    why = stopped(s, &e);
    if (why && is_quote(&e)) return reject(s, &e, why, o);
  }
  if (replaced >= 0) {
    cancel(s, replaced, 27, o);
    if (with > replaced) with--;
  }
  int traded = with >= 0;
  while (with >= 0 && e.quantity) {
    Entry rests = s->entries[with];
    uint32_t quantity = e.quantity < rests.quantity ? e.quantity : rests.quantity;
    report(o, 3, 0, e.sell, e.party, e.number, rests.number, rests.working, 0, quantity);
    lower(s, with, quantity);
    e.quantity -= quantity;
    if (e.quantity) with = next_trade(s, &e);
  }
  if (!e.quantity) return;
  if (traded) why = stopped(s, &e);
  if (!why) {
    s->entries[s->count++] = e;
    report(o, 4, 0, e.sell, e.party, e.number, 0, display(&e), e.working, e.quantity);
    return;
  }
  report(o, 6, why, e.sell, e.party, e.number, 0, e.limit, 0, e.quantity);
  int opposite = is_quote(&e) ? quote_of(s, e.party, !e.sell) : -1;
  if (opposite >= 0) cancel(s, opposite, 29, o);
}

/* ---- the whole ---- */

static void sweep(Series *s, Out *o) {
  for (;;) {
    int found = -1;
    for (uint32_t i = 0; i < s->count; i++)
      if ((s->phase == 0 || is_quote(&s->entries[i])) && (found < 0 || s->entries[i].number < s->entries[found].number)) found = i;
    if (found < 0) return;
    cancel(s, found, 31, o);
  }
}

static int refusal(const Series *s, const Ask *a, int *place) {
  int enters = a->kind <= 6, quotes = a->kind <= 4, makers = quotes || a->kind == 8 || a->kind == 12;
  *place = -1;
  if ((enters || a->kind == 7 || makers) && (!a->party || a->party > (makers ? MAKERS : 99))) return 2;
  if (enters && !legal(s->m, a->price)) return 3;
  if (a->kind == 9 && !(given(s->m, a->price) && given(s->m, a->second))) return 3;
  if (a->kind == 10 && a->price > 100000) return 3;
  if (enters && (!a->quantity || a->quantity > 99999)) return 4;
  if (a->kind == 11 && a->quantity > 2) return 4;
  if (enters && s->phase != 1) return 5;
  if (quotes && s->blocked[a->party - 1]) return 6;
  if (quotes || a->kind == 8) *place = quote_of(s, a->party, a->sell);
  if (enters && s->count == PLACES && *place < 0) return 7;
  if (enters && s->given == 1000000) return 9;
  if (a->kind == 7)
    for (uint32_t i = 0; i < s->count; i++)
      if (s->entries[i].number == a->entry && s->entries[i].party == a->party) *place = i;
  return (a->kind == 7 || a->kind == 8) && *place < 0 ? 8 : 0;
}

int engine_handle(Series *s, const uint8_t *message, size_t length, uint8_t *room, size_t space, size_t *count) {
  Ask a;
  int place;
  *count = 0;
  if (space < ROOM) return 10;
  if (!sound(s)) return 11;
  if (length != MESSAGE || !unpack(message, &a)) return 1;
  int why = refusal(s, &a, &place);
  if (why) return why;
  Out o = {room, 0};
  switch (a.kind) {
    case 7: case 8: cancel(s, place, 28, &o); break;
    case 9: s->bid = a.price; s->offer = a.second; report(&o, 1, 0, 0, 0, 0, 0, 0, 0, 0); break;
    case 10: s->underlying = a.price; report(&o, 1, 0, 0, 0, 0, 0, 0, 0, 0); break;
    case 11:
      s->phase = a.quantity;
      report(&o, 1, 0, 0, 0, 0, 0, 0, 0, 0);
      if (s->phase != 1) sweep(s, &o);
      break;
    case 12: s->blocked[a.party - 1] = 0; report(&o, 1, 0, 0, 0, 0, 0, 0, 0, 0); break;
    default: {
      Entry e = {.number = ++s->given, .limit = a.price, .quantity = a.quantity, .party = a.party, .kind = a.kind, .sell = a.sell};
      arrive(s, e, place, &o);
    }
  }
  if (s->phase == 1) settle(s, &o);
  *count = o.count;
  return 0;
}
