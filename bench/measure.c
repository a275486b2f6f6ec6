/* Plays one stream with the proved handler and with the engine, in turns, and prints a row of the table:

     measure NAME FILE ROUNDS      without these: how many bytes the engine's state has

   Both write the reports of message after message into one buffer of their own; unless the two are the same, byte for byte, it fails. */
#include "players.h"
#include <pthread.h>
#include <string.h>

static uint8_t *stream, *outs[2];
static size_t length, space, used[2];

static uint64_t timed(int which) {
  const uint64_t start = now();
  used[which] = players[which](stream, 4, stream + 4, length - 4, outs[which], space);
  return now() - start;
}

/* ---- the deepest stack, by what is left of a pattern on a stack of its own ---- */

enum { STACK = 8 << 20, NONE = 2 };

static void *on_own_stack(void *which) {
  if (*(int *)which != NONE) timed(*(int *)which);
  return NULL;
}

static size_t touched(int which) {
  uint8_t *stack = aligned_alloc(4096, STACK);
  pthread_attr_t how;
  pthread_t thread;
  memset(stack, 165, STACK);
  pthread_attr_init(&how);
  pthread_attr_setstack(&how, stack, STACK);
  if (pthread_create(&thread, &how, on_own_stack, &which)) exit(3);
  pthread_join(thread, NULL);
  size_t untouched = 0;
  while (untouched < STACK && stack[untouched] == 165) untouched++;
  free(stack);
  return STACK - untouched;
}

/* less what a thread takes that plays nothing */
static size_t stack_of(int which) { return touched(which) - touched(NONE); }

int main(int argc, char **argv) {
  if (argc == 1) return printf("%zu\n", sizeof(Series)) < 0;
  if (argc != 4) return 2;
  stream = malloc(1 << 27);
  length = read_stream(argv[2], stream, 1 << 27);
  space = (size_t)1 << 29;
  for (int i = 0; i < 2; i++) memset(outs[i] = malloc(space), 0, space);
  double best[2] = {1e18, 1e18};
  for (int round = atoi(argv[3]); round > 0; round--)
    for (int i = 0; i < 2; i++) {
      const double t = timed(i);
      if (t < best[i]) best[i] = t;
    }
  if (used[PROVED] != used[ENGINE] || memcmp(outs[PROVED], outs[ENGINE], used[PROVED])) {
    fprintf(stderr, "measure: on %s the reports differ\n", argv[1]);
    return 1;
  }
  double messages = (length - 4) / MESSAGE, reports = used[PROVED] / REPORT;
  printf("| %s | %.0f | %.2f | %.0f | %.0f | %.2f | %zu, %zu |\n", argv[1], messages, reports / messages, best[PROVED] / messages,
         best[ENGINE] / messages, best[PROVED] / best[ENGINE], stack_of(PROVED), stack_of(ENGINE));
}
