/* A reader of BER, CER and DER, written from ITU-T X.690 alone and by recursion, for the tests of
 * include/bcder.h. It has the two limits of the library: a tag number below 2^21, and lengths of at
 * most four octets. It shares no code with the library. */
#ifndef READER_H
#define READER_H
#include <stdbool.h>
#include <stddef.h>
#include <stdint.h>

enum { REF_BER, REF_CER, REF_DER };

typedef struct { size_t size, len; uint32_t number; unsigned cls; bool constructed, indefinite; } ref_header;
typedef struct { size_t values, depth; } ref_count;

/* 8.1.3: length octets; their number, or 0 if there are none. */
static size_t ref_length(int mode, const uint8_t *p, size_t n, bool *indefinite, size_t *len) {
  if (n == 0) return 0;
  *indefinite = false;
  if (p[0] < 0x80) { *len = p[0]; return 1; }                          /* 8.1.3.4 */
  if (p[0] == 0x80) { *indefinite = true; *len = 0; return 1; }        /* 8.1.3.6 */
  size_t k = p[0] & 0x7F;                                              /* 8.1.3.5 */
  if (k > 4 || n < 1 + k) return 0;
  size_t v = 0;
  for (size_t i = 1; i <= k; i++) v = v << 8 | p[i];
  if (mode != REF_BER && (v < 0x80 || p[1] == 0)) return 0;            /* 9.1, 10.1: the fewest octets */
  *len = v;
  return 1 + k;
}

/* 8.1.5: end-of-contents octets; their number, or 0. */
static size_t ref_end(int mode, const uint8_t *p, size_t n) {
  bool indefinite; size_t len;
  if (n == 0 || p[0] != 0) return 0;
  size_t k = ref_length(mode, p + 1, n - 1, &indefinite, &len);
  return k != 0 && !indefinite && len == 0 ? 1 + k : 0;
}

/* 8.1.2, 8.1.3: identifier octets and length octets of a value. */
static bool ref_heading(int mode, const uint8_t *p, size_t n, ref_header *h) {
  if (n == 0) return false;
  size_t i = 1;
  h->cls = p[0] >> 6;
  h->constructed = (p[0] & 0x20) != 0;
  h->number = p[0] & 0x1F;
  if (h->number == 31) {                                               /* 8.1.2.4 */
    uint32_t v = 0; int count = 0;
    do {
      if (i == n || count == 3) return false;
      if (count == 0 && p[i] == 0x80) return false;                    /* 8.1.2.4.2 c */
      v = v << 7 | (p[i] & 0x7F);
      count++;
    } while (p[i++] & 0x80);
    if (v < 31) return false;                                          /* 8.1.2.2 */
    h->number = v;
  }
  if (h->cls == 0 && h->number == 0) return false;                     /* 8.1.5 */
  size_t k = ref_length(mode, p + i, n - i, &h->indefinite, &h->len);
  if (k == 0) return false;
  h->size = i + k;
  if (h->indefinite) return h->constructed && mode != REF_DER;         /* 8.1.3.2, 10.1 */
  return !(h->constructed && mode == REF_CER);                         /* 9.1 */
}

static size_t ref_value(int mode, const uint8_t *p, size_t n, size_t depth, ref_count *c);

static bool ref_list(int mode, const uint8_t *p, size_t n, size_t depth, ref_count *c) {
  while (n > 0) {
    size_t k = ref_value(mode, p, n, depth, c);
    if (k == 0) return false;
    p += k; n -= k;
  }
  return true;
}

/* 8.1.1: the octets of the first value, or 0. */
static size_t ref_value(int mode, const uint8_t *p, size_t n, size_t depth, ref_count *c) {
  ref_header h;
  if (!ref_heading(mode, p, n, &h)) return 0;
  c->values++;
  if (depth + 1 > c->depth) c->depth = depth + 1;
  const uint8_t *q = p + h.size; size_t m = n - h.size;
  if (!h.indefinite) {
    if (h.len > m) return 0;
    if (h.constructed && !ref_list(mode, q, h.len, depth + 1, c)) return 0;
    return h.size + h.len;
  }
  for (;;) {
    size_t k = ref_end(mode, q, m);
    if (k != 0) return (size_t)(q - p) + k;
    k = ref_value(mode, q, m, depth + 1, c);
    if (k == 0) return 0;
    q += k; m -= k;
  }
}

/* 8.7, 9.2, 10.2: the octets of an octet string, copied to out; false if the contents are none. With the
 * tag of OCTET STRING on each segment: of any form in BER; in CER primitive ones of 1000 octets, but for
 * the last, which has 1 to 1000, over 1000 octets in all; in DER there are no segments. */
static inline bool ref_string(int mode, bool constructed, const uint8_t *p, size_t n, uint8_t *out, size_t *size) {
  if (!constructed) {
    if (mode == REF_CER && n > 1000) return false;
    for (size_t i = 0; i < n; i++) out[(*size)++] = p[i];
    return true;
  }
  if (mode == REF_DER) return false;
  size_t last = 1000, count = 0;
  while (n > 0) {
    ref_header h; ref_count c = {0, 0};
    size_t k = ref_value(mode, p, n, 0, &c), end = 0;
    if (k == 0 || !ref_heading(mode, p, n, &h) || h.cls != 0 || h.number != 4) return false;
    if (mode == REF_CER && (h.constructed || last != 1000 || h.len == 0 || h.len > 1000)) return false;
    if (h.indefinite) /* the end is the last octets: its zero length is of one octet, or of more after 81 to 84 */
      for (size_t j = 2; j <= 6 && end == 0; j++) {
        ref_count d = {0, 0};
        if (j + h.size <= k && ref_end(mode, p + k - j, j) == j && ref_list(mode, p + h.size, k - j - h.size, 0, &d)) end = j;
      }
    if (!ref_string(mode == REF_CER ? REF_BER : mode, h.constructed, p + h.size, k - h.size - end, out, size)) return false;
    last = h.len; count++;
    p += k; n -= k;
  }
  return mode != REF_CER || count > 1;
}
#endif
