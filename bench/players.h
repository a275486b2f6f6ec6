/* The two that are measured, as one kind of function: a setup and a run of messages, each message's reports written behind the last one's;
   it answers how many bytes that are. */
#ifndef PLAYERS_H
#define PLAYERS_H
#include "engine.h"
#include <stdio.h>
#include <stdlib.h>
#include <time.h>

typedef size_t Player(const uint8_t *setup, size_t setup_length, const uint8_t *run, size_t run_length, uint8_t *out, size_t out_length);

enum { PROVED, ENGINE };

Player waxglimmer_play; /* crate bench_played */

static size_t engine_play(const uint8_t *setup, size_t setup_length, const uint8_t *run, size_t run_length, uint8_t *out, size_t out_length) {
  static Series s;
  size_t used = 0, count;
  if (engine_setup(&s, setup, setup_length)) return 0;
  for (size_t at = 0; at + MESSAGE <= run_length && used + ROOM <= out_length; at += MESSAGE) {
    engine_handle(&s, run + at, MESSAGE, out + used, out_length - used, &count);
    used += REPORT * count;
  }
  return used;
}

static Player *const players[2] = {waxglimmer_play, engine_play};

static uint64_t now(void) { /* in ns */
  struct timespec t;
  clock_gettime(CLOCK_MONOTONIC, &t);
  return t.tv_sec * 1000000000ull + t.tv_nsec;
}

static size_t read_stream(const char *path, uint8_t *into, size_t most) {
  FILE *file = fopen(path, "rb");
  size_t length = file ? fread(into, 1, most, file) : 0;
  if (length < 4 + MESSAGE) exit(2);
  return length;
}
#endif
