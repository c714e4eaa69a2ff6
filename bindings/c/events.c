/* Tests of bcder_next: all lists of up to three octets against a reader by recursion over reader.h,
 * and rows by hand. Exits with 1 at the first fault. */
#include "bcder.h"
#include "reader.h"
#include <stdio.h>
#include <stdlib.h>
#include <string.h>

#define CHECK(fact) do { if (!(fact)) { printf("%s:%d: not so: %s\n", __FILE__, __LINE__, #fact); exit(1); } } while (0)
enum { MOST = 32 };

/* ---- what is to be told, by recursion */

typedef struct { size_t at, depth, size; uint8_t kind; ref_header header; } ref_event;
static ref_event wanted[MOST];
static size_t count, stopped;

static void tell(uint8_t kind, size_t at, size_t depth, size_t size, const ref_header *h) {
  CHECK(count < MOST);
  ref_event e = {at, depth, size, kind, *h};
  wanted[count++] = e;
}

static uint8_t stop(uint8_t status, size_t at) { stopped = at; return status; }

/* one value of the octets from *at to end */
static uint8_t value(int mode, const uint8_t *p, size_t *at, size_t end, size_t depth) {
  static const ref_header none;
  ref_header h;
  size_t start = *at;
  if (start == end) return stop(BCDER_ENDED, start);
  if (!ref_heading(mode, p + start, end - start, &h)) return stop(BCDER_ABSENT, start);
  size_t inner = start + h.size;
  if (!h.indefinite && h.len > end - inner) return stop(BCDER_BEYOND, start);
  tell(h.constructed ? BCDER_BEGIN : BCDER_PRIMITIVE, start, depth, h.size, &h);
  *at = h.constructed ? inner : inner + h.len;
  if (!h.constructed) return BCDER_OK;
  for (;;) {
    size_t k = h.indefinite ? ref_end(mode, p + *at, end - *at) : 0;
    if (h.indefinite ? k != 0 : *at == inner + h.len) {
      tell(BCDER_END, *at, depth, k, &none);
      *at += k;
      return BCDER_OK;
    }
    uint8_t status = value(mode, p, at, h.indefinite ? end : inner + h.len, depth + 1);
    if (status != BCDER_OK) return status;
  }
}

static uint8_t values(int mode, const uint8_t *p, size_t n) {
  size_t at = 0;
  count = 0;
  while (at < n) {
    uint8_t status = value(mode, p, &at, n, 0);
    if (status != BCDER_OK) return status;
  }
  stopped = n;
  return BCDER_FINISHED;
}

/* ---- the same by steps */

static void compare(int mode, const uint8_t *p, size_t n) {
  uint8_t status = values(mode, p, n);
  size_t stack[MOST];
  bcder_walk_t w = {0, n, 0}, before;
  bcder_event_t e, kept;
  memset(&e, 0x55, sizeof e);
  for (size_t i = 0; i < count; i++) {
    CHECK(bcder_next((uint8_t)mode, p, n, stack, MOST, &w, &e) == BCDER_OK);
    const ref_event *r = &wanted[i];
    const ref_header *h = &r->header;
    CHECK(e.at == r->at && e.depth == r->depth && e.kind == r->kind && e.heading.size == r->size);
    CHECK(e.heading.len == h->len && e.heading.number == h->number && e.heading.cls == h->cls);
    CHECK(e.heading.constructed == h->constructed && e.heading.indefinite == h->indefinite);
  }
  before = w;
  memcpy(&kept, &e, sizeof e);
  CHECK(bcder_next((uint8_t)mode, p, n, stack, MOST, &w, &e) == status);
  CHECK(w.at == stopped && memcmp(&w, &before, sizeof w) == 0 && memcmp(&e, &kept, sizeof e) == 0);
}

/* ---- a check in one call, with the same stack */

static void check_on(int mode, const uint8_t *p, size_t n) {
  uint8_t all = values(mode, p, n);
  for (size_t room = 0; room <= 2; room++) {
    size_t stack[2], at = stopped, met = 0, depth = 0;
    uint8_t is = all == BCDER_FINISHED ? BCDER_OK : all;
    for (size_t i = 0; i < count; i++) {
      const ref_event *r = &wanted[i];
      if (r->kind == BCDER_BEGIN && r->depth == room) { is = BCDER_TOO_DEEP; at = r->at; break; }
      if (r->kind == BCDER_END) continue;
      met++;
      if (r->depth == depth) depth++;
    }
    bcder_checked_t c;
    CHECK(bcder_check_on((uint8_t)mode, p, n, room == 0 ? NULL : stack, room, &c) == is);
    CHECK(c.at == at && c.values == met && c.depth == depth);
  }
}

/* ---- by hand */

static void by_hand(void) {
  size_t stack[4];
  bcder_event_t e;
  bcder_walk_t w = {0, 5, 0};
  const uint8_t ends[] = {0x30, 0x80, 0x00, 0x81, 0x00};                /* BER: a long form of 0 */
  CHECK(bcder_next(BCDER_BER, ends, 5, stack, 4, &w, &e) == BCDER_OK && e.kind == BCDER_BEGIN);
  CHECK(bcder_next(BCDER_BER, ends, 5, stack, 4, &w, &e) == BCDER_OK && e.kind == BCDER_END);
  CHECK(e.at == 2 && e.depth == 0 && e.heading.size == 3);
  CHECK(bcder_next(BCDER_BER, ends, 5, stack, 4, &w, &e) == BCDER_FINISHED && w.at == 5);

  const uint8_t deep[] = {0x30, 8, 0x30, 6, 0x30, 4, 0x30, 2, 0x30, 0}; /* five values */
  bcder_walk_t d = {0, 10, 0};
  for (size_t i = 0; i < 4; i++) {
    CHECK(bcder_next(BCDER_DER, deep, 10, stack, 4, &d, &e) == BCDER_OK && e.depth == i && e.at == 2 * i);
  }
  CHECK(bcder_next(BCDER_DER, deep, 10, stack, 4, &d, &e) == BCDER_TOO_DEEP && d.at == 8 && d.depth == 4);

  bcder_checked_t c;
  CHECK(bcder_check_on(BCDER_DER, deep, 10, stack, 4, &c) == BCDER_TOO_DEEP && c.at == 8 && c.values == 4 && c.depth == 4);
  size_t five[5];
  CHECK(bcder_check_on(BCDER_DER, deep, 10, five, 5, &c) == BCDER_OK && c.at == 10 && c.values == 5 && c.depth == 5);
  const uint8_t leaf[] = {0x30, 2, 0x05, 0, 0x05, 0};                   /* a primitive value needs no room */
  CHECK(bcder_check_on(BCDER_DER, leaf, 6, five, 1, &c) == BCDER_OK && c.at == 6 && c.values == 3 && c.depth == 2);
  CHECK(bcder_check_on(BCDER_DER, leaf + 4, 2, NULL, 0, &c) == BCDER_OK && c.at == 2 && c.values == 1 && c.depth == 1);

  const uint8_t flat[] = {0x05, 0x00, 0x30, 0x00};                      /* no room at all */
  bcder_walk_t f = {0, 4, 0};
  CHECK(bcder_next(BCDER_DER, flat, 4, NULL, 0, &f, &e) == BCDER_OK && e.kind == BCDER_PRIMITIVE);
  CHECK(bcder_next(BCDER_DER, flat, 4, NULL, 0, &f, &e) == BCDER_TOO_DEEP && f.at == 2);
  CHECK(bcder_next(3, flat, 4, NULL, 0, &f, &e) == BCDER_UNKNOWN_RULES && f.at == 2);
  bcder_walk_t empty = {0, 0, 0};
  CHECK(bcder_next(BCDER_DER, NULL, 0, NULL, 0, &empty, &e) == BCDER_FINISHED);

  /* no walk gives these: with one value open, all octets are around it */
  const bcder_walk_t wrong[] = {{5, 4, 0}, {0, 5, 0}, {0, 3, 0}, {0, 4, 5}, {3, 2, 0}, {0, 2, 1}, {2, 4, 2}};
  stack[0] = 3, stack[1] = 3;
  for (size_t i = 0; i < sizeof wrong / sizeof *wrong; i++) {
    bcder_walk_t x = wrong[i];
    CHECK(bcder_next(BCDER_DER, flat, 4, stack, 4, &x, &e) == BCDER_MISUSED && memcmp(&x, &wrong[i], sizeof x) == 0);
  }
  bcder_walk_t marked = {0, 3, 1};
  stack[0] = SIZE_MAX;                                                  /* of indefinite length, in all octets */
  CHECK(bcder_next(BCDER_BER, flat, 4, stack, 4, &marked, &e) == BCDER_MISUSED);
  marked.end = 4;
  CHECK(bcder_next(BCDER_BER, flat, 4, stack, 4, &marked, &e) == BCDER_OK);
  bcder_walk_t saved = {4, 4, 1};
  stack[0] = 3;
  CHECK(bcder_next(BCDER_DER, flat, 4, stack, 4, &saved, &e) == BCDER_MISUSED);
  stack[0] = 5;
  CHECK(bcder_next(BCDER_DER, flat, 4, stack, 4, &saved, &e) == BCDER_MISUSED);
  stack[0] = 4;
  CHECK(bcder_next(BCDER_DER, flat, 4, stack, 4, &saved, &e) == BCDER_OK && e.kind == BCDER_END && saved.depth == 0);
}

int main(void) {
  unsigned long lists = 0;
  for (int mode = REF_BER; mode <= REF_DER; mode++) {
    for (size_t n = 0; n <= 3; n++) {
      for (uint32_t v = 0; v < (uint32_t)1 << (8 * n); v++, lists++) {
        uint8_t p[3] = {(uint8_t)v, (uint8_t)(v >> 8), (uint8_t)(v >> 16)};
        compare(mode, p, n);
        check_on(mode, p, n);
      }
    }
  }
  by_hand();
  printf("events: %lu lists compared\n", lists);
  return 0;
}
