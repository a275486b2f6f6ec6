/* For the tests: messages made of numbers, and buffers of given bytes that end where they must. */
#include "waxglimmer.h"

#include <string.h>

enum { BLANK = 165 };

static int blank(const uint8_t *bytes, size_t length) {
  for (size_t i = 0; i < length; i++)
    if (bytes[i] != BLANK)
      return 0;
  return 1;
}

/* `length` bytes before `end`: those given, then zeros */
static uint8_t *lend(uint8_t *end, const uint8_t *bytes, size_t given, size_t length) {
  memset(end - length, 0, length);
  memcpy(end - length, bytes, given < length ? given : length);
  return end - length;
}

/* a message whose second price and entry are 0 */
static void pack(uint8_t *bytes, uint64_t kind, uint64_t party, uint64_t side, uint64_t price, uint64_t quantity) {
  const uint64_t high = kind << 60 | party << 53 | side << 52 | price << 35 | quantity << 18;
  memset(bytes, 0, WAXGLIMMER_MESSAGE);
  for (unsigned i = 0; i < 8; i++)
    bytes[i] = (uint8_t)(high >> (56 - 8 * i));
}
