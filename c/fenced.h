/* For the tests: memory between two pages that may not be touched. A buffer that ends where the second begins is one in which a byte too far is
 * a crash, in code that no sanitizer watches too. */
#define _DEFAULT_SOURCE
#include <stdint.h>
#include <stdio.h>
#include <stdlib.h>
#include <sys/mman.h>
#include <unistd.h>

/* the end of `size` bytes (at least) behind which a page lies that may not be touched, as before them */
static uint8_t *fenced_end(size_t size) {
  const size_t page = (size_t)sysconf(_SC_PAGESIZE), pages = (size + page - 1) / page;
  uint8_t *all = mmap(NULL, (pages + 2) * page, PROT_NONE, MAP_PRIVATE | MAP_ANONYMOUS, -1, 0);
  if (all == MAP_FAILED || mprotect(all + page, pages * page, PROT_READ | PROT_WRITE) != 0) {
    puts("no memory");
    exit(1);
  }
  return all + (pages + 1) * page;
}
