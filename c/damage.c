/* Damaged state buffers. Plays the lesson on standard input; every so often it damages the state at each byte in turn, in several ways, and
 * asks the handler for something harmless, and before that why its first report would say what it says. The answer of both is refusal 11 with
 * every byte as it was, or 0 with a state that is again accepted and no reason to give. It also hands over buffers of other lengths, and too
 * small a room. Each lent buffer lies between two pages that may not be touched, and ends where the second begins. Exit status 1 at the first
 * answer that is none of these. */
#include "fenced.h"
#include "waxglimmer.h"

#include <string.h>

#define MOST (2 * WAXGLIMMER_STATE)

static uint8_t *room, *small, *lent_end, *underlying; /* kind 10: underlying price 0, which moves nothing of itself */
static const uint8_t blank[WAXGLIMMER_ROOM];
static unsigned long tried, refused, sound;

static void fail(const char *what, size_t at, unsigned value) {
  printf("damage: %s, byte %lu, value %u\n", what, (unsigned long)at, value);
  exit(1);
}

/* what why answers of a state: it is noted, for no reason, or refused with the room as it was */
static uint32_t ask_why(const uint8_t *lent, size_t length, uint8_t *lent_room, size_t room_length) {
  uint32_t told[3] = {7, 7, 7};
  memset(lent_room, 0, room_length);
  const uint32_t answer =
      waxglimmer_why(lent, length, underlying, WAXGLIMMER_MESSAGE, 0, lent_room, room_length, &told[0], &told[1], &told[2]);
  if (told[0] != 0 || told[1] != 0 || told[2] != 0)
    fail("a reason for what is only noted", length, answer);
  if (answer != 0 && memcmp(lent_room, blank, room_length) != 0)
    fail("a refusal of why wrote the room", length, answer);
  return answer;
}

/* what the handler makes of a state that may be damaged */
static void try_state(const uint8_t *state, size_t at, unsigned value) {
  uint8_t *lent = lent_end - WAXGLIMMER_STATE;
  size_t count = 7;
  memcpy(lent, state, WAXGLIMMER_STATE);
  const uint32_t asked = ask_why(lent, WAXGLIMMER_STATE, room, WAXGLIMMER_ROOM);
  if (memcmp(lent, state, WAXGLIMMER_STATE) != 0)
    fail("why wrote the state", at, value);
  uint32_t answer = waxglimmer_handle(lent, WAXGLIMMER_STATE, underlying, WAXGLIMMER_MESSAGE, room, WAXGLIMMER_ROOM, &count);
  tried++;
  if (asked != answer)
    fail("why answers otherwise", at, value);
  if (answer == 11) {
    refused++;
    if (memcmp(lent, state, WAXGLIMMER_STATE) != 0 || count != 0)
      fail("a refusal wrote", at, value);
  } else if (answer == 0) {
    sound++;
    if (waxglimmer_handle(lent, WAXGLIMMER_STATE, underlying, WAXGLIMMER_MESSAGE, room, WAXGLIMMER_ROOM, &count) != 0)
      fail("an accepted state is refused", at, value);
  } else {
    fail("another refusal than 11", at, value);
  }
}

static void damage(uint8_t *state) {
  for (size_t at = 0; at < WAXGLIMMER_STATE; at++) {
    const uint8_t was = state[at];
    const uint8_t values[6] = {0, 1, 2, 255, (uint8_t)(was + 1), (uint8_t)(was ^ 128)};
    for (unsigned i = 0; i < 6; i++) {
      state[at] = values[i];
      try_state(state, at, values[i]);
    }
    state[at] = was;
  }
}

/* buffers and rooms of other lengths */
static void lengths(const uint8_t *state) {
  size_t count = 7;
  for (size_t length = 0; length < MOST; length++) {
    uint8_t *lent = lent_end - length;
    if (length == WAXGLIMMER_STATE)
      continue;
    memset(lent, 0, length);
    memcpy(lent, state, length < WAXGLIMMER_STATE ? length : WAXGLIMMER_STATE);
    count = 7;
    if (waxglimmer_handle(lent, length, underlying, WAXGLIMMER_MESSAGE, room, WAXGLIMMER_ROOM, &count) != 11 || count != 0 ||
        ask_why(lent, length, room, WAXGLIMMER_ROOM) != 11)
      fail("a buffer of another length was taken", length, 0);
  }
  uint8_t *lent = lent_end - WAXGLIMMER_STATE;
  count = 7;
  memcpy(lent, state, WAXGLIMMER_STATE);
  if (waxglimmer_handle(lent, WAXGLIMMER_STATE, underlying, WAXGLIMMER_MESSAGE, small, WAXGLIMMER_ROOM - 1, &count) != 10 || count != 0 ||
      ask_why(lent, WAXGLIMMER_STATE, small, WAXGLIMMER_ROOM - 1) != 10)
    fail("a room too small was taken", WAXGLIMMER_ROOM - 1, 0);
  if (memcmp(lent, state, WAXGLIMMER_STATE) != 0)
    fail("refusal 10 wrote", 0, 0);
}

int main(void) {
  uint8_t setup[WAXGLIMMER_SETUP], message[WAXGLIMMER_MESSAGE], state[WAXGLIMMER_STATE];
  size_t count, length = fread(setup, 1, sizeof setup, stdin);
  room = fenced_end(WAXGLIMMER_ROOM) - WAXGLIMMER_ROOM;
  small = fenced_end(WAXGLIMMER_ROOM) - (WAXGLIMMER_ROOM - 1);
  lent_end = fenced_end(MOST);
  underlying = fenced_end(WAXGLIMMER_MESSAGE) - WAXGLIMMER_MESSAGE;
  underlying[0] = 0xA0;
  if (waxglimmer_setup(setup, length, state, sizeof state) != 0)
    return 0;
  damage(state);
  lengths(state);
  for (unsigned long number = 1; (length = fread(message, 1, sizeof message, stdin)) > 0; number++) {
    waxglimmer_handle(state, sizeof state, message, length, room, WAXGLIMMER_ROOM, &count);
    if (number == 4 || number % 16 == 0)
      damage(state);
  }
  damage(state);
  if (tried == 0 || refused == 0 || sound == 0) {
    printf("damage: %lu tried, %lu refused, %lu sound: not every case was met\n", tried, refused, sound);
    return 1;
  }
  printf("damage: %lu states tried: %lu refused with 11 and left as they were, %lu sound\n", tried, refused, sound);
  return 0;
}
