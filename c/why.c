/* Why each report says what it says: a setup and then messages on standard input, and for every report of every message a line with the
 * message's number, the report's place, the rule and its two figures, or `none` where there is no reason to give. Why is asked of the state
 * before the message; then the message is answered, and the next one finds the state after it. */
#include "waxglimmer.h"

#include <stdio.h>

static uint8_t state[WAXGLIMMER_STATE];
static uint8_t room[WAXGLIMMER_ROOM];

/* a line for each place, until there is none at the next: refusal 12, which comes behind the message's own */
static void tell(unsigned long number, const uint8_t *message, size_t length) {
  for (size_t place = 0;; place++) {
    uint32_t rule, first, second;
    const uint32_t refusal = waxglimmer_why(state, sizeof state, message, length, place, room, sizeof room, &rule, &first, &second);
    if (refusal == 12)
      return;
    if (refusal != 0) {
      printf("%lu refused %lu\n", number, (unsigned long)refusal);
      return;
    }
    if (rule == 0)
      printf("%lu %lu none\n", number, (unsigned long)place);
    else
      printf("%lu %lu %lu %lu %lu\n", number, (unsigned long)place, (unsigned long)rule, (unsigned long)first, (unsigned long)second);
  }
}

int main(void) {
  uint8_t setup[WAXGLIMMER_SETUP], message[WAXGLIMMER_MESSAGE];
  size_t count, length = fread(setup, 1, sizeof setup, stdin);
  const uint32_t refusal = waxglimmer_setup(setup, length, state, sizeof state);
  if (refusal != 0)
    printf("0 refused %lu\n", (unsigned long)refusal);
  else
    for (unsigned long number = 1; (length = fread(message, 1, sizeof message, stdin)) > 0; number++) {
      tell(number, message, length);
      waxglimmer_handle(state, sizeof state, message, length, room, sizeof room, &count);
    }
  if (ferror(stdin) || fflush(stdout) != 0 || ferror(stdout)) {
    perror("why");
    return 1;
  }
  return 0;
}
