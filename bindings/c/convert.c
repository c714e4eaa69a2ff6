/* Tests of bcder_convert: all lists of up to three octets, and longer ones over a few octets, against
 * a conversion by recursion over reader.h; rows by hand; long and deep values. Exits with 1 at the
 * first fault. */
#include "bcder.h"
#include "reader.h"
#include <stdio.h>
#include <stdlib.h>
#include <string.h>

#define CHECK(fact) do { if (!(fact)) { printf("%s:%d: not so: %s\n", __FILE__, __LINE__, #fact); exit(1); } } while (0)
enum { ROOM = 64 };

/* ---- by recursion: X.690, 8.1.3, 9.1, 9.2, 10.1, 11.1 and 11.2.1 */

static bool all_of(int from, int to, const uint8_t *p, size_t n, uint8_t *out, size_t *size);

/* how many contents octets a value has, behind whose header are n octets */
static size_t contents_len(int from, const ref_header *h, const uint8_t *c, size_t n) {
  if (!h->indefinite) return h->len;
  size_t len = 0;
  while (ref_end(from, c + len, n - len) == 0) {
    ref_count k = {0, 0};
    len += ref_value(from, c + len, n - len, 0, &k);
  }
  return len;
}

/* the types of X.680, 8.4, whose values are octets */
static bool is_text(uint32_t number) {
  static const uint8_t numbers[] = {4, 7, 12, 18, 19, 20, 21, 22, 23, 24, 25, 26, 27, 28, 30};
  return number <= 30 && memchr(numbers, (int)number, sizeof numbers) != NULL;
}

static void identifier(const ref_header *h, uint8_t *out, size_t *size) {
  uint8_t first = (uint8_t)(h->cls << 6 | (h->constructed ? 0x20 : 0));
  if (h->number < 31) { out[(*size)++] = first | (uint8_t)h->number; return; }
  out[(*size)++] = first | 31;
  if (h->number >= 1 << 14) out[(*size)++] = (uint8_t)(0x80 | h->number >> 14);
  if (h->number >= 1 << 7) out[(*size)++] = (uint8_t)(0x80 | (h->number >> 7 & 0x7F));
  out[(*size)++] = (uint8_t)(h->number & 0x7F);
}

/* 8.7.3: the octets of the segments that all octets are */
static bool join(int from, const uint8_t *p, size_t n, uint8_t *out, size_t *size) {
  while (n > 0) {
    ref_header h;
    ref_count k = {0, 0};
    size_t first = ref_value(from, p, n, 0, &k);
    CHECK(first > 0 && ref_heading(from, p, n, &h));
    if (h.cls != 0 || h.number != 4) return false;
    const uint8_t *c = p + h.size;
    size_t len = contents_len(from, &h, c, first - h.size);
    if (h.constructed) {
      if (!join(from, c, len, out, size)) return false;
    } else {
      memcpy(out + *size, c, len);
      *size += len;
    }
    p += first; n -= first;
  }
  return true;
}

/* the first value, of which the whole is n octets */
static bool one_of(int from, int to, const uint8_t *p, size_t n, uint8_t *out, size_t *size) {
  ref_header h;
  CHECK(ref_heading(from, p, n, &h));
  const uint8_t *c = p + h.size;
  size_t len = contents_len(from, &h, c, n - h.size);
  bool boolean = h.cls == 0 && h.number == 1, bits = h.cls == 0 && h.number == 3, text = h.cls == 0 && is_text(h.number);
  if (h.constructed) {
    uint8_t inner[ROOM];
    size_t count = 0;
    if (text) { /* of at most 1000 octets */
      if (!join(from, c, len, inner, &count)) return false;
      h.constructed = false;
      identifier(&h, out, size);
      out[(*size)++] = (uint8_t)count;
      memcpy(out + *size, inner, count);
      *size += count;
      return true;
    }
    if (boolean || bits || text || !all_of(from, to, c, len, inner, &count)) return false;
    CHECK(count < 0x80);
    identifier(&h, out, size);
    out[(*size)++] = to == REF_CER ? 0x80 : (uint8_t)count;
    memcpy(out + *size, inner, count);
    *size += count;
    if (to == REF_CER) { out[(*size)++] = 0; out[(*size)++] = 0; }
    return true;
  }
  CHECK(len < 0x80);
  if (boolean && len != 1) return false;
  if (bits && (len == 0 || c[0] > 7 || (len == 1 && c[0] != 0) || (len > 1 && (c[len - 1] & ((1 << c[0]) - 1)) != 0))) return false;
  identifier(&h, out, size);
  out[(*size)++] = (uint8_t)len;
  memcpy(out + *size, c, len);
  if (boolean && c[0] != 0) out[*size] = 0xFF;
  *size += len;
  return true;
}

static bool all_of(int from, int to, const uint8_t *p, size_t n, uint8_t *out, size_t *size) {
  while (n > 0) {
    ref_count k = {0, 0};
    size_t first = ref_value(from, p, n, 0, &k);
    CHECK(first > 0);
    if (!one_of(from, to, p, first, out, size)) return false;
    p += first; n -= first;
  }
  return true;
}

static unsigned long compared, made;

static void compare(int from, int to, const uint8_t *p, size_t n) {
  uint8_t wanted[ROOM], out[ROOM];
  size_t count = 0, size = 12345;
  ref_count k = {0, 0};
  uint8_t is = BCDER_OK;
  if (!ref_list(from, p, n, 0, &k)) is = BCDER_ABSENT;
  else if (to == REF_BER) { memcpy(wanted, p, n); count = n; }
  else if (!all_of(from, to, p, n, wanted, &count)) is = BCDER_NOT_CONVERTED;
  compared++;
  memset(out, 0xA5, sizeof out);
  if (is != BCDER_OK) {
    CHECK(bcder_convert((uint8_t)from, (uint8_t)to, p, n, out, sizeof out, &size) == is && size == 12345 && out[0] == 0xA5);
    return;
  }
  made++;
  for (size_t room = count > 0 ? count - 1 : 0; room <= count + 1; room++) {
    memset(out, 0xA5, sizeof out);
    size = 12345;
    uint8_t status = bcder_convert((uint8_t)from, (uint8_t)to, p, n, room == 0 ? NULL : out, room, &size);
    CHECK(status == (room < count ? BCDER_TOO_SMALL : BCDER_OK) && size == count);
    size_t kept = room < count ? 0 : count;
    CHECK(memcmp(out, wanted, kept) == 0);
    for (size_t i = kept; i < sizeof out; i++) CHECK(out[i] == 0xA5);
  }
  bcder_checked_t c;
  CHECK(bcder_check((uint8_t)to, wanted, count, &c) == BCDER_OK && c.values <= k.values && c.depth <= k.depth);
}

static void lists(void) {
  static const uint8_t letters[] = {0x00, 0x01, 0x02, 0x03, 0x04, 0x1F, 0x24, 0x30, 0x80, 0x81, 0xFF};
#ifdef BRIEF
  enum { LETTERS = sizeof letters, SHORT = 2, LONGER = 5 };
#else
  enum { LETTERS = sizeof letters, SHORT = 3, LONGER = 6 };
#endif
  for (int from = 0; from < 3; from++)
    for (int to = 0; to < 3; to++) {
      uint8_t w[LONGER];
      for (size_t n = 0; n <= SHORT; n++)
        for (uint32_t v = 0; v < (uint32_t)1 << (8 * n); v++) {
          for (size_t i = 0; i < n; i++) w[i] = (uint8_t)(v >> (8 * i));
          if (n < 3 || to != REF_BER) compare(from, to, w, n);
        }
      for (size_t n = SHORT + 1; n <= LONGER; n++) {
        unsigned long count = 1;
        for (size_t i = 0; i < n; i++) count *= LETTERS;
        for (unsigned long v = 0; v < count; v++) {
          unsigned long x = v;
          for (size_t i = 0; i < n; i++, x /= LETTERS) w[i] = letters[x % LETTERS];
          compare(from, to, w, n);
        }
      }
    }
}

/* ---- by hand */

static void becomes(uint8_t from, uint8_t to, const uint8_t *p, size_t n, const uint8_t *q, size_t m) {
  uint8_t out[ROOM];
  size_t size = 0;
  CHECK(bcder_convert(from, to, p, n, out, sizeof out, &size) == BCDER_OK && size == m && memcmp(out, q, m) == 0);
}

static void by_hand(void) {
  static const uint8_t basic[] = {0x30, 0x80, 0x02, 0x81, 0x01, 0x05, 0xA0, 0x80, 0x01, 0x01, 0x01, 0x00, 0x00, 0x00, 0x81, 0x00};
  static const uint8_t der[] = {0x30, 0x08, 0x02, 0x01, 0x05, 0xA0, 0x03, 0x01, 0x01, 0xFF};
  static const uint8_t cer[] = {0x30, 0x80, 0x02, 0x01, 0x05, 0xA0, 0x80, 0x01, 0x01, 0xFF, 0x00, 0x00, 0x00, 0x00};
  becomes(BCDER_BER, BCDER_DER, basic, sizeof basic, der, sizeof der);
  becomes(BCDER_BER, BCDER_CER, basic, sizeof basic, cer, sizeof cer);
  becomes(BCDER_BER, BCDER_BER, basic, sizeof basic, basic, sizeof basic);
  becomes(BCDER_DER, BCDER_CER, der, sizeof der, cer, sizeof cer);
  becomes(BCDER_CER, BCDER_DER, cer, sizeof cer, der, sizeof der);
  becomes(BCDER_CER, BCDER_BER, cer, sizeof cer, cer, sizeof cer);
  static const uint8_t tags[] = {0x3F, 0x1F, 0x80, 0xDF, 0x81, 0x00, 0x00, 0xDF, 0xFF, 0xFF, 0x7F, 0x81, 0x00, 0x00, 0x00};
  static const uint8_t short_tags[] = {0x3F, 0x1F, 0x09, 0xDF, 0x81, 0x00, 0x00, 0xDF, 0xFF, 0xFF, 0x7F, 0x00};
  becomes(BCDER_BER, BCDER_DER, tags, sizeof tags, short_tags, sizeof short_tags);
  static const uint8_t cut[] = {0x24, 0x80, 0x04, 0x01, 0x61, 0x24, 0x03, 0x04, 0x01, 0x62, 0x04, 0x00, 0x00, 0x00, 0x2C, 0x00};
  static const uint8_t joined[] = {0x04, 0x02, 0x61, 0x62, 0x0C, 0x00};
  becomes(BCDER_BER, BCDER_DER, cut, sizeof cut, joined, sizeof joined);
  becomes(BCDER_BER, BCDER_CER, cut, sizeof cut, joined, sizeof joined);
  uint8_t out[8];
  size_t size = 7;
  CHECK(bcder_convert(BCDER_DER, BCDER_CER, NULL, 0, NULL, 0, &size) == BCDER_OK && size == 0);
  size = 7;
  for (unsigned rules = 3; rules < 256; rules++) {
    CHECK(bcder_convert((uint8_t)rules, BCDER_DER, der, sizeof der, out, sizeof out, &size) == BCDER_UNKNOWN_RULES && size == 7);
    CHECK(bcder_convert(BCDER_DER, (uint8_t)rules, der, sizeof der, out, sizeof out, &size) == BCDER_UNKNOWN_RULES && size == 7);
  }
}

/* ---- long and deep values */

static void long_values(void) {
  static const size_t lens[] = {0x7F, 0x80, 0xFF, 0x100, 1000, 1001, 0xFFFF, 0x10000, 0x1000000};
  for (size_t i = 0; i < sizeof lens / sizeof *lens; i++) {
    size_t len = lens[i], n = len + 6, size = 0;
    uint8_t *w = malloc(n + 8), *out = malloc(n + 16);
    CHECK(w != NULL && out != NULL);
    for (unsigned tag = 2; tag <= 4; tag += 2) {
      const uint8_t head[] = {(uint8_t)tag, 0x84, (uint8_t)(len >> 24), (uint8_t)(len >> 16), (uint8_t)(len >> 8), (uint8_t)len};
      memcpy(w + 2, head, 6);
      memset(w + 8, 0x11, len);
      w[0] = 0x30; w[1] = 0x80; w[n + 2] = 0; w[n + 3] = 0;
      size_t count = len < 0x80 ? 1 : len < 0x100 ? 2 : len < 0x10000 ? 3 : len < 0x1000000 ? 4 : 5;
      size_t inner = 1 + count + len, outer = inner < 0x80 ? 1 : inner < 0x100 ? 2 : inner < 0x10000 ? 3 : inner < 0x1000000 ? 4 : 5;
      CHECK(bcder_convert(BCDER_BER, BCDER_DER, w, n + 4, out, n + 16, &size) == BCDER_OK && size == 1 + outer + inner);
      bcder_checked_t c;
      CHECK(bcder_check(BCDER_DER, out, size, &c) == BCDER_OK && c.values == 2);
      CHECK(memcmp(out + size - len, w + 8, len) == 0);
      if (tag == 4 && len > 1000) continue; /* see long_strings */
      CHECK(bcder_convert(BCDER_BER, BCDER_CER, w, n + 4, out, n + 16, &size) == BCDER_OK && size == inner + 4);
      CHECK(bcder_check(BCDER_CER, out, size, &c) == BCDER_OK);
    }
    free(w); free(out);
  }
}

/* ---- strings around 1000 octets (X.690, 9.2, 10.2) */

/* 8.1.3.4, 8.1.3.5, 10.1: identifier octets and the fewest length octets */
static uint8_t *header(uint8_t *p, uint8_t tag, size_t len) {
  *p++ = tag;
  if (len < 0x80) { *p++ = (uint8_t)len; return p; }
  size_t count = len < 0x100 ? 1 : len < 0x10000 ? 2 : 3;
  *p++ = (uint8_t)(0x80 | count);
  while (count-- > 0) *p++ = (uint8_t)(len >> (8 * count));
  return p;
}

static uint8_t *piece(uint8_t *p, uint8_t tag, const uint8_t *s, size_t len) {
  p = header(p, tag, len);
  memcpy(p, s, len);
  return p + len;
}

static uint8_t *ends(uint8_t *p) { *p++ = 0; *p++ = 0; return p; }

/* cut into segments of so many octets, every third of them inside a constructed one of its own */
static uint8_t *in_segments(uint8_t *p, uint8_t tag, const uint8_t *s, size_t len, size_t most, bool nested) {
  *p++ = tag | 0x20; *p++ = 0x80;
  for (size_t at = 0, i = 0; at < len; at += most, i++) {
    size_t n = len - at < most ? len - at : most;
    if (nested && i % 3 == 0) { *p++ = 0x24; *p++ = 0x80; }
    p = piece(p, 4, s + at, n);
    if (nested && i % 3 == 0) { p = piece(p, 4, s, 0); p = ends(p); }
  }
  return ends(p);
}

enum { LONG = 100000 };

static void long_strings(void) {
  static const size_t lens[] = {0, 1, 999, 1000, 1001, 1999, 2000, 2001, 2500, 65536, LONG};
  static const size_t cuts[] = {7, 250, 999, 1000, 1001, 4096};
  static const uint8_t tags[] = {0x04, 0x0C, 0x1E};
  uint8_t *s = malloc(LONG), *w = malloc(4 * LONG), *der = malloc(2 * LONG), *cer = malloc(2 * LONG), *out = malloc(2 * LONG);
  CHECK(s != NULL && w != NULL && der != NULL && cer != NULL && out != NULL);
  for (size_t i = 0; i < LONG; i++) s[i] = (uint8_t)(i * 7 + i / 256);
  for (size_t t = 0; t < sizeof tags; t++)
    for (size_t i = 0; i < sizeof lens / sizeof *lens; i++) {
      size_t len = lens[i], size;
      size_t d = (size_t)(piece(der, tags[t], s, len) - der);
      size_t c = (size_t)((len <= 1000 ? piece(cer, tags[t], s, len) : in_segments(cer, tags[t], s, len, 1000, false)) - cer);
      const struct { uint8_t from, to; const uint8_t *p, *q; size_t n, m; } rows[] = {
        {BCDER_DER, BCDER_CER, der, cer, d, c}, {BCDER_CER, BCDER_DER, cer, der, c, d},
        {BCDER_DER, BCDER_DER, der, der, d, d}, {BCDER_CER, BCDER_CER, cer, cer, c, c}};
      for (size_t r = 0; r < 4; r++) {
        CHECK(bcder_convert(rows[r].from, rows[r].to, rows[r].p, rows[r].n, out, 2 * LONG, &size) == BCDER_OK);
        CHECK(size == rows[r].m && memcmp(out, rows[r].q, size) == 0);
      }
      for (size_t j = 0; j < sizeof cuts / sizeof *cuts; j++)
        for (int nested = 0; nested < 2; nested++) {
          size_t n = (size_t)(in_segments(w, tags[t], s, len, cuts[j], nested != 0) - w);
          CHECK(bcder_convert(BCDER_BER, BCDER_DER, w, n, out, 2 * LONG, &size) == BCDER_OK && size == d && memcmp(out, der, d) == 0);
          CHECK(bcder_convert(BCDER_BER, BCDER_CER, w, n, out, 2 * LONG, &size) == BCDER_OK && size == c && memcmp(out, cer, c) == 0);
        }
    }
  free(s); free(w); free(der); free(cer); free(out);
}

enum { LEVELS = 1000000 };

static void deep(void) {
  size_t n = 4 * (size_t)LEVELS, room = 6 * (size_t)LEVELS, size, back;
  uint8_t *w = malloc(n), *out = malloc(room), *again = malloc(n);
  CHECK(w != NULL && out != NULL && again != NULL);
  for (size_t i = 0; i < LEVELS; i++) { w[2 * i] = 0x30; w[2 * i + 1] = 0x80; }
  memset(w + 2 * (size_t)LEVELS, 0, 2 * (size_t)LEVELS);
  bcder_checked_t c;
  CHECK(bcder_convert(BCDER_BER, BCDER_DER, w, n, out, room, &size) == BCDER_OK);
  CHECK(bcder_check(BCDER_DER, out, size, &c) == BCDER_OK && c.values == LEVELS && c.depth == LEVELS);
  CHECK(bcder_convert(BCDER_DER, BCDER_CER, out, size, again, n, &back) == BCDER_OK && back == n && memcmp(w, again, n) == 0);
  CHECK(bcder_convert(BCDER_DER, BCDER_CER, out, size, again, n - 1, &back) == BCDER_TOO_SMALL && back == n);
  free(w); free(out); free(again);
}

int main(void) {
  by_hand();
  long_values();
  long_strings();
  deep();
  lists();
  printf("conversion: %lu lists compared, %lu converted\n", compared, made);
  return 0;
}
