/* Tests of the readers at the end of bcder.h. Expected values are worked by hand from X.690. */
#include "bcder.h"
#include <stdio.h>
#include <string.h>

static int failed;

static void is(int line, long found, long wanted) {
  if (found == wanted) return;
  printf("line %d: %ld, not %ld\n", line, found, wanted);
  failed = 1;
}
#define IS(found, wanted) is(__LINE__, (long)(found), (long)(wanted))

/* Reads { INTEGER, BOOLEAN, [0] IMPLICIT OCTET STRING OPTIONAL }, and nothing behind it. */
static uint8_t pair(uint8_t rules, const uint8_t *data, size_t len, int64_t *number, bool *truth, size_t *octets) {
  bcder_reader_t all = bcder_reader(rules, data, len), inside, string;
  bool there;
  uint8_t status = bcder_take_sequence(&all, &inside);
  if (status == BCDER_OK) status = bcder_take_i64(&inside, number);
  if (status == BCDER_OK) status = bcder_take_bool(&inside, truth);
  if (status == BCDER_OK) status = bcder_take_opt_tag(&inside, BCDER_CONTEXT(0), false, &there, &string);
  if (status == BCDER_OK) *octets = there ? string.len : 99;
  if (status == BCDER_OK && !(bcder_is_empty(&inside) && bcder_is_empty(&all))) status = BCDER_ABSENT;
  return status;
}

int main(void) {
  int64_t number = 0;
  uint64_t natural = 0;
  bool truth = false, there = true;
  size_t octets = 0;
  bcder_heading_t h;
  bcder_reader_t r, c;

  const uint8_t both[] = {0x30, 6, 2, 1, 0xFB, 1, 1, 0xFF};
  IS(pair(BCDER_DER, both, sizeof both, &number, &truth, &octets), BCDER_OK);
  IS(number, -5), IS(truth, 1), IS(octets, 99);
  const uint8_t three[] = {0x30, 10, 2, 1, 5, 1, 1, 0, 0x80, 2, 7, 8};
  IS(pair(BCDER_DER, three, sizeof three, &number, &truth, &octets), BCDER_OK);
  IS(number, 5), IS(truth, 0), IS(octets, 2);
  const uint8_t open[] = {0x30, 0x80, 2, 1, 5, 1, 1, 0, 0, 0};
  IS(pair(BCDER_BER, open, sizeof open, &number, &truth, &octets), BCDER_OK);
  IS(pair(BCDER_CER, open, sizeof open, &number, &truth, &octets), BCDER_OK);
  IS(pair(BCDER_DER, open, sizeof open, &number, &truth, &octets), BCDER_ABSENT);
  IS(pair(BCDER_BER, open, sizeof open - 2, &number, &truth, &octets), BCDER_ENDED);
  IS(pair(9, open, sizeof open, &number, &truth, &octets), BCDER_UNKNOWN_RULES);

  /* other tags, values left inside and behind, a length that goes beyond */
  const uint8_t set[] = {0x31, 6, 2, 1, 5, 1, 1, 0xFF}, left[] = {0x30, 8, 2, 1, 5, 1, 1, 0, 5, 0};
  const uint8_t behind[] = {0x30, 6, 2, 1, 5, 1, 1, 0, 5, 0}, beyond[] = {0x30, 7, 2, 1, 5, 1, 1, 0};
  const uint8_t inner[] = {0x30, 6, 2, 1, 5, 1, 2, 0};
  IS(pair(BCDER_DER, set, sizeof set, &number, &truth, &octets), BCDER_ABSENT);
  IS(pair(BCDER_DER, left, sizeof left, &number, &truth, &octets), BCDER_ABSENT);
  IS(pair(BCDER_DER, behind, sizeof behind, &number, &truth, &octets), BCDER_ABSENT);
  IS(pair(BCDER_DER, beyond, sizeof beyond, &number, &truth, &octets), BCDER_BEYOND);
  IS(pair(BCDER_DER, inner, sizeof inner, &number, &truth, &octets), BCDER_BEYOND);

  /* a refusal leaves the reader */
  r = bcder_reader(BCDER_DER, both + 2, 6);
  IS(bcder_take_u64(&r, &natural), BCDER_ABSENT), IS(r.len, 6);
  IS(bcder_take_bool(&r, &truth), BCDER_ABSENT), IS(r.len, 6);
  IS(bcder_take_opt_tag(&r, BCDER_UNIVERSAL(1), false, &there, &c), BCDER_OK), IS(there, 0), IS(r.len, 6);
  IS(bcder_take_i64(&r, &number), BCDER_OK), IS(r.len, 3);
  IS(bcder_take_tag(&r, BCDER_UNIVERSAL(1), true, &c), BCDER_ABSENT);
  IS(bcder_take_bool(&r, &truth), BCDER_OK), IS(bcder_is_empty(&r), 1);
  IS(bcder_take(&r, &h, &c), BCDER_ABSENT);
  IS(bcder_take_opt_tag(&r, BCDER_UNIVERSAL(1), false, &there, &c), BCDER_OK), IS(there, 0);
  r = bcder_reader(BCDER_DER, NULL, 0);
  IS(bcder_take(&r, &h, &c), BCDER_ABSENT);

  /* each kind, each class, and an end of more than two octets */
  const uint8_t kinds[] = {2, 9, 0, 0xFF, 0xFF, 0xFF, 0xFF, 0xFF, 0xFF, 0xFF, 0xFF, 6, 1, 0x2A, 4, 1, 9, 0x31, 0,
      0x7F, 0x81, 0, 0, 0xC1, 0, 0xA2, 0x80, 5, 0, 0, 0x81, 0, 5, 0};
  r = bcder_reader(BCDER_BER, kinds, sizeof kinds);
  IS(bcder_take_i64(&r, &number), BCDER_ABSENT);
  IS(bcder_take_u64(&r, &natural), BCDER_OK), IS(natural == UINT64_MAX, 1);
  IS(bcder_take_octets(&r, &c), BCDER_ABSENT);
  IS(bcder_take_oid(&r, &c), BCDER_OK), IS(c.len, 1), IS(c.data[0], 0x2A);
  IS(bcder_take_octets(&r, &c), BCDER_OK), IS(c.len, 1), IS(c.data[0], 9);
  IS(bcder_take_set(&r, &c), BCDER_OK), IS(c.len, 0);
  IS(bcder_take_tag(&r, BCDER_APPLICATION(128), true, &c), BCDER_OK);
  IS(bcder_take_tag(&r, BCDER_PRIVATE(1), false, &c), BCDER_OK);
  IS(bcder_take_tag(&r, BCDER_CONTEXT(2), true, &c), BCDER_OK), IS(c.len, 2);
  IS(bcder_take(&r, &h, &c), BCDER_OK), IS(h.number, 5), IS(bcder_is_empty(&r), 1);

  /* each status has a text of its own */
  for (uint8_t s = BCDER_OK; s <= BCDER_TOO_SMALL; s++)
    for (uint8_t t = 0; t < s; t++) IS(strcmp(bcder_error_text(s), bcder_error_text(t)) != 0, 1);
  IS(strcmp(bcder_error_text(BCDER_NO_MEMORY), "out of memory"), 0);
  IS(strcmp(bcder_error_text(77), "no such status"), 0);
  puts(failed ? "takes: failed" : "takes: all as they should be");
  return failed;
}
