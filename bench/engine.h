/* The same rules as the proved handler, written in C for speed and not verified: what it is measured against. */
#ifndef ENGINE_H
#define ENGINE_H
#include <stddef.h>
#include <stdint.h>

enum { PLACES = 64, MAKERS = 16, ROOM = 31920, REPORT = 14, MESSAGE = 11 };
enum { FIXED, DARK, SLIDING };

typedef struct {
  uint32_t number, limit, quantity, working, display; /* display: 0 unless sliding */
  uint8_t party, kind, sell, pricing;
} Entry;

typedef struct {
  uint32_t m, k, strike, phase, bid, offer, underlying, given;
  uint8_t put, exempt, blocked[MAKERS];
  uint32_t count;
  Entry entries[PLACES]; /* in rank order, zero behind the last */
} Series;

/* 0, or 1 for bytes that set up no series */
int engine_setup(Series *s, const uint8_t *setup, size_t length);

/* the refusal, 0 for none; the reports stand at the front of the room */
int engine_handle(Series *s, const uint8_t *message, size_t length, uint8_t *room, size_t space, size_t *count);
#endif
