/* The small server loop to start from: a setup and then messages on standard input, each answered with its reports, one line each: the
 * message's number, then the report's nine fields. It writes what the session program writes, and each answer before it waits for more. */
#include "waxglimmer.h"

#include <stdio.h>

static uint8_t state[WAXGLIMMER_STATE];
static uint8_t room[WAXGLIMMER_ROOM];

/* the fields of a report, in bits: kind, reason, side, party, entry, other entry, price, second, quantity; five zero bits end it */
static const unsigned widths[9] = {3, 5, 1, 7, 20, 20, 17, 17, 17};

/* the number that `width` bits make from bit `from` on, most significant first */
static unsigned long field(const uint8_t *bytes, unsigned from, unsigned width) {
  unsigned long value = 0;
  for (unsigned bit = from; bit < from + width; bit++)
    value = value << 1 | (bytes[bit / 8] >> (7 - bit % 8) & 1);
  return value;
}

static void print_report(unsigned long number, const uint8_t *report) {
  unsigned from = 0;
  printf("%lu", number);
  for (unsigned i = 0; i < 9; i++) {
    printf(" %lu", field(report, from, widths[i]));
    from += widths[i];
  }
  putchar('\n');
}

/* 0 if all could be read and written; else it says so, and what was written is not whole */
static int ended(void) {
  if (ferror(stdin)) {
    perror("example: standard input");
    return 1;
  }
  if (fflush(stdout) != 0 || ferror(stdout)) {
    perror("example: standard output");
    return 1;
  }
  return 0;
}

int main(void) {
  uint8_t setup[WAXGLIMMER_SETUP], message[WAXGLIMMER_MESSAGE];
  size_t length = fread(setup, 1, sizeof setup, stdin);
  if (ferror(stdin))
    return ended();
  uint32_t refusal = waxglimmer_setup(setup, length, state, sizeof state);
  if (refusal != 0) {
    printf("0 refused %lu\n", (unsigned long)refusal);
    return ended();
  }
  /* a short last message is handed over too, and refused */
  for (unsigned long number = 1; (length = fread(message, 1, sizeof message, stdin)) > 0 && !ferror(stdin); number++) {
    size_t count;
    refusal = waxglimmer_handle(state, sizeof state, message, length, room, sizeof room, &count);
    if (refusal != 0)
      printf("%lu refused %lu\n", number, (unsigned long)refusal);
    for (size_t i = 0; i < count; i++)
      print_report(number, room + i * WAXGLIMMER_REPORT);
    if (fflush(stdout) != 0)
      break;
  }
  return ended();
}
