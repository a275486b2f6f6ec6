/* Plays a session with the engine alone, and prints what the session program prints. */
#include "engine.h"
#include <stdio.h>

static uint64_t bits(const uint8_t *p, int at, int n) {
  uint64_t x = 0;
  for (int i = at; i < at + n; i++) x = x << 1 | (p[i / 8] >> (7 - i % 8) & 1);
  return x;
}

int main(void) {
  static Series s;
  static uint8_t room[ROOM];
  static const int widths[] = {3, 5, 1, 7, 20, 20, 17, 17, 17};
  uint8_t b[MESSAGE];
  size_t n = fread(b, 1, 4, stdin), count;
  if (engine_setup(&s, b, n)) {
    puts("0 refused 1");
    return 0;
  }
  for (long number = 1; (n = fread(b, 1, MESSAGE, stdin)) > 0; number++) {
    int why = engine_handle(&s, b, n, room, sizeof room, &count);
    if (why) printf("%ld refused %d\n", number, why);
    for (size_t i = 0; i < count; i++) {
      printf("%ld", number);
      for (int f = 0, at = 0; f < 9; at += widths[f++]) printf(" %d", (int)bits(room + 14 * i, at, widths[f]));
      putchar('\n');
    }
  }
}
