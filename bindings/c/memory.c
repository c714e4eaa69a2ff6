/* Each allocation of a walk over deep values fails in turn: it returns BCDER_NO_MEMORY, and nothing
 * is leaked. Linked with the allocator's functions wrapped. */
#include "bcder.h"
#include <stdio.h>
#include <stdlib.h>
#include <string.h>

static long left = -1; /* allocations that are still granted; all, if below 0 */
static long held;      /* blocks that weren't freed */

void *__real_malloc(size_t);
void *__real_realloc(void *, size_t);
void __real_free(void *);

static bool is_refused(void) {
  if (left < 0) return false;
  if (left == 0) return true;
  left--;
  return false;
}

void *__wrap_malloc(size_t n) { return is_refused() ? NULL : (held++, __real_malloc(n)); }
void *__wrap_realloc(void *p, size_t n) { return is_refused() ? NULL : (held += p == NULL, __real_realloc(p, n)); }
void __wrap_free(void *p) { held -= p != NULL; __real_free(p); }
void *__wrap_calloc(size_t k, size_t n) { (void)k, (void)n; abort(); }
void *__wrap_aligned_alloc(size_t a, size_t n) { (void)a, (void)n; abort(); }
int __wrap_posix_memalign(void **p, size_t a, size_t n) { (void)p, (void)a, (void)n; abort(); }

enum { LEVELS = 10000 };

int main(void) {
  static uint8_t w[4 * LEVELS];
  for (size_t i = 0; i < LEVELS; i++) { w[2 * i] = 0x30; w[2 * i + 1] = 0x80; }
  bcder_checked_t c;
  long refused = 0;
  for (;; refused++) {
    left = refused;
    uint8_t status = bcder_check(BCDER_BER, w, sizeof w, &c);
    if (status == BCDER_OK) break;
    if (status != BCDER_NO_MEMORY || c.depth >= LEVELS || c.at != 2 * c.depth) {
      printf("with %ld allocations: status %d at %zu\n", refused, status, c.at);
      return 1;
    }
    if (held != 0) { printf("with %ld allocations: %ld blocks are leaked\n", refused, held); return 1; }
  }
  if (held != 0) { printf("%ld blocks are leaked\n", held); return 1; }
  /* a conversion: the same, and then the size is as it was */
  static uint8_t out[6 * LEVELS];
  long of_conversion = 0;
  for (;; of_conversion++) {
    size_t size = 7;
    left = of_conversion;
    uint8_t status = bcder_convert(BCDER_BER, BCDER_DER, w, sizeof w, out, sizeof out, &size);
    if (held != 0) { printf("a conversion, with %ld allocations: %ld blocks are leaked\n", of_conversion, held); return 1; }
    if (status == BCDER_OK && of_conversion > refused) break;
    if (status != BCDER_NO_MEMORY || size != 7) {
      printf("a conversion, with %ld allocations: status %d\n", of_conversion, status);
      return 1;
    }
  }
  /* a string of nested segments: the same, and then nothing is stored */
  for (size_t i = 0; i < LEVELS; i++) w[2 * i] = 0x24;
  long of_string = 0;
  for (;; of_string++) {
    size_t size = 7;
    left = of_string;
    uint8_t status = bcder_string(BCDER_BER, true, w, sizeof w, NULL, 0, &size);
    if (held != 0) { printf("with %ld allocations: %ld blocks are leaked\n", of_string, held); return 1; }
    if (status == BCDER_OK && size == 0 && of_string > 0) break;
    if (status != BCDER_NO_MEMORY || size != 7) { printf("a string, with %ld allocations: status %d\n", of_string, status); return 1; }
  }
  /* with a stack of the caller's there is none to be refused */
  static size_t stack[LEVELS];
  left = 0;
  if (bcder_check_on(BCDER_BER, w, sizeof w, stack, LEVELS, &c) != BCDER_OK || c.depth != LEVELS) { printf("a stack isn't enough\n"); return 1; }
  /* a primitive value needs none */
  static const uint8_t null[] = {0x05, 0x00};
  left = 0;
  if (refused == 0 || bcder_check(BCDER_DER, null, 2, &c) != BCDER_OK) { printf("a NULL needs memory\n"); return 1; }
  printf("%ld allocations for %d levels, %ld to convert them, each refused once\n", refused, LEVELS, of_conversion);
  return 0;
}
