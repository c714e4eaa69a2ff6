/* Tests of include/bcder.h: each function, each status, deep values, and all lists of up to three
 * octets against the reader of reader.h. Prints what it did, and exits with 1 at the first fault. */
#include "bcder.h"
#include "reader.h"
#include <stdio.h>
#include <stdlib.h>
#include <string.h>

#define CHECK(fact) do { if (!(fact)) { printf("%s:%d: not so: %s\n", __FILE__, __LINE__, #fact); exit(1); } } while (0)

static const char *const names[] = {"BER", "CER", "DER"};
static unsigned long compared;

/* ---- one list of octets, compared with the independent reader */

static void differs(const char *what, int mode, const uint8_t *p, size_t n) {
  printf("%s differs in %s for", what, names[mode]);
  for (size_t i = 0; i < n; i++) printf(" %02X", p[i]);
  printf("\n");
  exit(1);
}

static void compare(int mode, const uint8_t *p, size_t n) {
  bcder_heading_t h; ref_header r;
  bool has = ref_heading(mode, p, n, &r);
  uint8_t status = bcder_heading((uint8_t)mode, p, n, &h);
  if (status != (has ? BCDER_OK : BCDER_ABSENT)) differs("a heading", mode, p, n);
  if (has && (h.size != r.size || h.len != r.len || h.number != r.number || h.cls != r.cls ||
              h.constructed != r.constructed || h.indefinite != r.indefinite))
    differs("what a heading says", mode, p, n);

  size_t size = 99, end = ref_end(mode, p, n);
  status = bcder_end((uint8_t)mode, p, n, &size);
  if (status != (end ? BCDER_OK : BCDER_ABSENT) || size != (end ? end : 99)) differs("an end", mode, p, n);

  bcder_checked_t c; ref_count k = {0, 0};
  size_t first = ref_value(mode, p, n, 0, &k);
  status = bcder_value((uint8_t)mode, p, n, &c);
  if (first ? status != BCDER_OK || c.at != first || c.values != k.values || c.depth != k.depth
            : status < BCDER_ABSENT || status > BCDER_ENDED || c.at > n)
    differs("a value", mode, p, n);

  ref_count l = {0, 0};
  bool list = ref_list(mode, p, n, 0, &l);
  status = bcder_check((uint8_t)mode, p, n, &c);
  if (list ? status != BCDER_OK || c.at != n || c.values != l.values || c.depth != l.depth
           : status < BCDER_ABSENT || status > BCDER_ENDED || c.at > n)
    differs("a list", mode, p, n);
  for (size_t levels = 0; levels < (n > 3 ? 3 : 2); levels++) { /* three octets are at most two levels */
    bcder_checked_t w;
    uint8_t of_all = status;
    status = bcder_check_within((uint8_t)mode, p, n, levels, &w);
    bool deep = c.depth > levels; /* what the check met, before it stopped if it did */
    if (deep ? status != BCDER_TOO_DEEP || w.depth != levels || w.at > c.at
             : status != BCDER_TOO_DEEP && (status != of_all || w.at != c.at || w.values != c.values || w.depth != c.depth))
      differs("a list of few levels", mode, p, n);
    if (status == BCDER_TOO_DEEP && list && l.depth <= levels) differs("a list that isn't deep", mode, p, n);
    status = of_all;
  }
  compared++;
}

/* ---- contents octets, by X.690, 8.2, 8.3, 8.6, 8.8, 8.19, 8.23 and RFC 3629 */

static bool ref_utf8(const uint8_t *p, size_t n) {
  for (size_t i = 0; i < n;) {
    uint32_t c = p[i], least; size_t k;
    if (c < 0x80) { i++; continue; }
    if ((c & 0xE0) == 0xC0) { k = 1; c &= 0x1F; least = 0x80; }
    else if ((c & 0xF0) == 0xE0) { k = 2; c &= 0x0F; least = 0x800; }
    else if ((c & 0xF8) == 0xF0) { k = 3; c &= 0x07; least = 0x10000; }
    else return false;
    if (n - i <= k) return false;
    for (size_t j = 1; j <= k; j++) { if ((p[i + j] & 0xC0) != 0x80) return false; c = c << 6 | (p[i + j] & 0x3F); }
    if (c < least || c > 0x10FFFF || (c >= 0xD800 && c <= 0xDFFF)) return false;
    i += k + 1;
  }
  return true;
}

static bool all_in(const char *set, size_t size, const uint8_t *p, size_t n) {
  for (size_t i = 0; i < n; i++) if (memchr(set, p[i], size) == NULL) return false;
  return true;
}

static bool ref_integer(const uint8_t *p, size_t n) {
  return n == 1 || (n > 1 && !(p[0] == 0 && p[1] < 0x80) && !(p[0] == 0xFF && p[1] >= 0x80));
}

/* The octets of the number without its sign: from the last octet on, each is taken from zero if it is
 * negative, with what the one after it borrowed; then leading zeros are left out. */
static size_t ref_magnitude(const uint8_t *p, size_t n, uint8_t *out) {
  uint8_t all[1200];
  unsigned borrow = 0;
  for (size_t i = n; i-- > 0;) {
    int d = p[0] >= 0x80 ? -(int)p[i] - (int)borrow : p[i];
    borrow = d < 0;
    all[i] = (uint8_t)d;
  }
  size_t from = 0;
  while (from < n && all[from] == 0) from++;
  memcpy(out, all + from, n - from);
  return n - from;
}

/* What is stored in a buffer with just enough room, with more, and with too little. */
static void stores(const char *what, int mode, const uint8_t *p, size_t n, bool is, const uint8_t *wanted, size_t count,
                   uint8_t (*call)(int, const uint8_t *, size_t, uint8_t *, size_t, size_t *)) {
  static uint8_t out[5100];
  size_t size = 12345;
  if (!is) {
    out[0] = 0xA5;
    if (call(mode, p, n, out, sizeof out, &size) != BCDER_ABSENT || size != 12345 || out[0] != 0xA5) differs(what, mode, p, n);
    return;
  }
  for (size_t room = count > 0 ? count - 1 : 0; room <= count + 1; room++) {
    memset(out, 0xA5, count + 2);
    size = 12345;
    uint8_t status = call(mode, p, n, out, room, &size);
    if (status != (room < count ? BCDER_TOO_SMALL : BCDER_OK) || size != count) differs(what, mode, p, n);
    size_t kept = room < count ? 0 : count;
    if (memcmp(out, wanted, kept) != 0) differs(what, mode, p, n);
    for (size_t i = kept; i < count + 2; i++) if (out[i] != 0xA5) differs(what, mode, p, n);
  }
}

static uint8_t call_magnitude(int mode, const uint8_t *p, size_t n, uint8_t *out, size_t room, size_t *size) {
  (void)mode;
  return bcder_magnitude(p, n, out, room, size);
}

static uint8_t call_whole(int mode, const uint8_t *p, size_t n, uint8_t *out, size_t room, size_t *size) {
  return bcder_string((uint8_t)mode, false, p, n, out, room, size);
}

static uint8_t call_cut(int mode, const uint8_t *p, size_t n, uint8_t *out, size_t room, size_t *size) {
  return bcder_string((uint8_t)mode, true, p, n, out, room, size);
}

static void strings(const uint8_t *p, size_t n) {
  static uint8_t out[1300];
  for (int mode = 0; mode < 3; mode++) {
    size_t size = 0;
    bool is = ref_string(mode, false, p, n, out, &size);
    stores("a string in one piece", mode, p, n, is, out, size, call_whole);
    size = 0;
    is = ref_string(mode, true, p, n, out, &size);
    stores("a string in segments", mode, p, n, is, out, size, call_cut);
  }
}

/* The text of identifiers by decimal digits, the last first: each octet of a subidentifier multiplies by 128. */
static size_t ref_oid_text(const uint8_t *p, size_t n, uint8_t *out) {
  uint8_t digits[400] = {0};
  size_t count = 1, size = 0;
  bool first = true;
  for (size_t i = 0; i < n; i++) {
    unsigned carry = p[i] & 0x7F;
    for (size_t j = 0; j < count; j++) { carry += digits[j] * 128u; digits[j] = (uint8_t)(carry % 10); carry /= 10; }
    for (; carry > 0; carry /= 10) digits[count++] = (uint8_t)(carry % 10);
    if (p[i] & 0x80) continue;
    if (first) { /* 8.19.4: 40 times the first component is in it, or 80 at most */
      unsigned tens = count > 2 ? 8 : digits[1], root = tens >= 8 ? 2 : tens >= 4 ? 1 : 0;
      out[size++] = (uint8_t)('0' + root);
      unsigned less = 4 * root;
      if (digits[1] >= less) digits[1] = (uint8_t)(digits[1] - less);
      else {
        size_t j = 2;
        digits[1] = (uint8_t)(digits[1] + 10 - less);
        while (digits[j] == 0) digits[j++] = 9;
        digits[j]--;
      }
      while (count > 1 && digits[count - 1] == 0) count--;
    }
    out[size++] = '.';
    for (size_t j = count; j-- > 0;) out[size++] = (uint8_t)('0' + digits[j]);
    memset(digits, 0, count);
    count = 1; first = false;
  }
  return size;
}

static uint8_t call_oid_text(int mode, const uint8_t *p, size_t n, uint8_t *out, size_t room, size_t *size) {
  (void)mode;
  return bcder_oid_text(p, n, (char *)out, room, size);
}

/* Whether each subidentifier is below 2^128: its digits in base 128, without leading zeros, are at most 18, or 19 and at most
 * 3 in the first. */
static bool ref_below(const uint8_t *p, size_t n) {
  size_t count = 0;
  uint8_t lead = 0;
  for (size_t i = 0; i < n; i++) {
    if (count > 0 || (p[i] & 0x7F) != 0) { if (count++ == 0) lead = p[i] & 0x7F; }
    if (count > 19 || (count == 19 && lead > 3)) return false;
    if (!(p[i] & 0x80)) count = 0;
  }
  return true;
}

static void identifier_text(const uint8_t *p, size_t n) {
  static uint8_t out[5000];
  bool is = n > 0 && p[n - 1] < 0x80 && ref_below(p, n);
  stores("the text of an identifier", 0, p, n, is, out, is ? ref_oid_text(p, n, out) : 0, call_oid_text);
}

static void contents(const uint8_t *p, size_t n) {
  static uint8_t digits_out[1300];
  static const char digits[] = "0123456789 ";
  static const char printable[] = "ABCDEFGHIJKLMNOPQRSTUVWXYZabcdefghijklmnopqrstuvwxyz0123456789 '()+,-./:=?";
  for (int mode = 0; mode < 3; mode++) {
    bool truth = false;
    bool is = n == 1 && (mode == REF_BER || p[0] == 0 || p[0] == 0xFF);
    if (bcder_bool((uint8_t)mode, p, n, &truth) != (is ? BCDER_OK : BCDER_ABSENT) || truth != (is && p[0] != 0))
      differs("a boolean", mode, p, n);
    uint8_t unused = 99;
    is = n > 0 && p[0] < 8 && (p[0] == 0 || n > 1) && !(mode == REF_CER && n > 1000) &&
         (mode == REF_BER || n == 1 || (p[n - 1] & ((1 << p[0]) - 1)) == 0);
    if (bcder_bits((uint8_t)mode, p, n, &unused) != (is ? BCDER_OK : BCDER_ABSENT) || unused != (is ? p[0] : 99))
      differs("a bit string", mode, p, n);
  }
  bool integer = ref_integer(p, n), minus = false;
  if (bcder_integer(p, n, &minus) != (integer ? BCDER_OK : BCDER_ABSENT) || minus != (integer && p[0] >= 0x80))
    differs("an integer", 0, p, n);
  stores("a magnitude", 0, p, n, integer, digits_out, integer ? ref_magnitude(p, n, digits_out) : 0, call_magnitude);
  /* the number as an __int128, which has room for all that is asked */
  __int128 z = 0; int64_t i64 = 77; uint64_t u64 = 77;
  if (integer && n <= 9) {
    z = p[0] >= 0x80 ? -1 : 0;
    for (size_t i = 0; i < n; i++) z = z * 256 + p[i];
  }
  bool fits = integer && n <= 9 && z >= INT64_MIN && z <= INT64_MAX;
  if (bcder_i64(p, n, &i64) != (fits ? BCDER_OK : BCDER_ABSENT) || i64 != (fits ? (int64_t)z : 77)) differs("an int64_t", 0, p, n);
  fits = integer && n <= 9 && z >= 0 && z <= UINT64_MAX;
  if (bcder_u64(p, n, &u64) != (fits ? BCDER_OK : BCDER_ABSENT) || u64 != (fits ? (uint64_t)z : 77)) differs("a uint64_t", 0, p, n);
  if (bcder_null(p, n) != (n == 0 ? BCDER_OK : BCDER_ABSENT)) differs("a null", 0, p, n);
  if (bcder_oid(p, n) != (n > 0 && p[n - 1] < 0x80 ? BCDER_OK : BCDER_ABSENT)) differs("an identifier", 0, p, n);
  identifier_text(p, n);
  if (bcder_utf8(p, n) != (ref_utf8(p, n) ? BCDER_OK : BCDER_ABSENT)) differs("UTF-8", 0, p, n);
  if (bcder_numeric(p, n) != (all_in(digits, sizeof digits - 1, p, n) ? BCDER_OK : BCDER_ABSENT)) differs("a NumericString", 0, p, n);
  if (bcder_printable(p, n) != (all_in(printable, sizeof printable - 1, p, n) ? BCDER_OK : BCDER_ABSENT)) differs("a PrintableString", 0, p, n);
  bool ascii = true;
  for (size_t i = 0; i < n; i++) ascii = ascii && p[i] < 0x80;
  if (bcder_ia5(p, n) != (ascii ? BCDER_OK : BCDER_ABSENT)) differs("an IA5String", 0, p, n);
}

/* ---- lists of octets */

#ifdef BRIEF /* for a slower run, under the sanitizers */
enum { SHORT = 2, LONGER = 5 };
#else
enum { SHORT = 3, LONGER = 6 };
#endif

static void short_lists(void) {
  unsigned long before = compared;
  uint8_t w[SHORT];
  for (size_t n = 0; n <= SHORT; n++)
    for (unsigned long v = 0; v < 1ul << (8 * n); v++) {
      for (size_t i = 0; i < n; i++) w[i] = (uint8_t)(v >> (8 * i));
      for (int mode = 0; mode < 3; mode++) compare(mode, w, n);
      contents(w, n);
      if (n < 3 || (w[0] & 0xDF) == 4) strings(w, n);
    }
  printf("lists of up to %d octets: %lu comparisons\n", SHORT, compared - before);
}

static void longer_lists(void) {
  static const uint8_t letters[] = {0x00, 0x01, 0x02, 0x04, 0x1F, 0x24, 0x30, 0x80, 0x81, 0x84, 0x9F, 0xFF};
  enum { LETTERS = sizeof letters };
  unsigned long before = compared;
  uint8_t w[LONGER];
  for (size_t n = 4; n <= LONGER; n++) {
    unsigned long count = 1;
    for (size_t i = 0; i < n; i++) count *= LETTERS;
    for (unsigned long v = 0; v < count; v++) {
      unsigned long x = v;
      for (size_t i = 0; i < n; i++, x /= LETTERS) w[i] = letters[x % LETTERS];
      for (int mode = 0; mode < 3; mode++) compare(mode, w, n);
      contents(w, n);
      strings(w, n);
    }
  }
  printf("lists of 4 to %d octets over %d letters: %lu comparisons\n", LONGER, LETTERS, compared - before);
}

/* ---- what the header says of each status */

static void statuses(void) {
  static const uint8_t sequence[] = {0x30, 0x03, 0x02, 0x01, 0x05};
  bcder_heading_t h, h0;
  bcder_checked_t c, c0;
  size_t size = 7;
  bool truth = true;
  uint8_t unused = 7;
  memset(&h, 0xAA, sizeof h); h0 = h;
  memset(&c, 0xAA, sizeof c); c0 = c;
  for (unsigned rules = 3; rules < 256; rules++) {
    CHECK(bcder_heading((uint8_t)rules, sequence, 5, &h) == BCDER_UNKNOWN_RULES);
    CHECK(bcder_end((uint8_t)rules, sequence, 5, &size) == BCDER_UNKNOWN_RULES);
    CHECK(bcder_value((uint8_t)rules, sequence, 5, &c) == BCDER_UNKNOWN_RULES);
    CHECK(bcder_check((uint8_t)rules, sequence, 5, &c) == BCDER_UNKNOWN_RULES);
    CHECK(bcder_check_within((uint8_t)rules, sequence, 5, 9, &c) == BCDER_UNKNOWN_RULES);
    CHECK(bcder_check_on((uint8_t)rules, sequence, 5, &size, 1, &c) == BCDER_UNKNOWN_RULES);
    CHECK(bcder_bool((uint8_t)rules, sequence, 1, &truth) == BCDER_UNKNOWN_RULES);
    CHECK(bcder_bits((uint8_t)rules, sequence, 1, &unused) == BCDER_UNKNOWN_RULES);
  }
  CHECK(memcmp(&h, &h0, sizeof h) == 0 && memcmp(&c, &c0, sizeof c) == 0 && size == 7 && truth && unused == 7);

  /* no octets, behind NULL */
  for (uint8_t rules = 0; rules < 3; rules++) {
    CHECK(bcder_heading(rules, NULL, 0, &h) == BCDER_ABSENT);
    CHECK(bcder_end(rules, NULL, 0, &size) == BCDER_ABSENT);
    CHECK(bcder_value(rules, NULL, 0, &c) == BCDER_ENDED && c.at == 0 && c.values == 0 && c.depth == 0);
    CHECK(bcder_check(rules, NULL, 0, &c) == BCDER_OK && c.at == 0 && c.values == 0 && c.depth == 0);
    CHECK(bcder_check_within(rules, NULL, 0, 0, &c) == BCDER_OK && c.at == 0 && c.values == 0 && c.depth == 0);
    CHECK(bcder_check_on(rules, NULL, 0, NULL, 0, &c) == BCDER_OK && c.at == 0 && c.values == 0 && c.depth == 0);
    CHECK(bcder_bool(rules, NULL, 0, &truth) == BCDER_ABSENT);
    CHECK(bcder_bits(rules, NULL, 0, &unused) == BCDER_ABSENT);
  }
  int64_t i; uint64_t u; bool minus;
  CHECK(bcder_null(NULL, 0) == BCDER_OK && bcder_oid(NULL, 0) == BCDER_ABSENT);
  CHECK(bcder_i64(NULL, 0, &i) == BCDER_ABSENT && bcder_u64(NULL, 0, &u) == BCDER_ABSENT && bcder_integer(NULL, 0, &minus) == BCDER_ABSENT);
  CHECK(bcder_utf8(NULL, 0) == BCDER_OK && bcder_numeric(NULL, 0) == BCDER_OK && bcder_printable(NULL, 0) == BCDER_OK && bcder_ia5(NULL, 0) == BCDER_OK);

  /* a SEQUENCE of an INTEGER, and each way that octets can be no values */
  CHECK(bcder_check(BCDER_DER, sequence, 5, &c) == BCDER_OK && c.at == 5 && c.values == 2 && c.depth == 2);
  CHECK(bcder_check(BCDER_CER, sequence, 5, &c) == BCDER_ABSENT && c.at == 0);
  CHECK(bcder_check_within(BCDER_DER, sequence, 5, 2, &c) == BCDER_OK && c.at == 5 && c.values == 2 && c.depth == 2);
  CHECK(bcder_check_within(BCDER_DER, sequence, 5, 1, &c) == BCDER_TOO_DEEP && c.at == 2 && c.values == 1 && c.depth == 1);
  CHECK(bcder_check_within(BCDER_DER, sequence, 5, 0, &c) == BCDER_TOO_DEEP && c.at == 0 && c.values == 0 && c.depth == 0);
  static const uint8_t beyond[] = {0x05, 0x00, 0x30, 0x04, 0x02, 0x03, 0x01, 0x01};
  CHECK(bcder_check(BCDER_BER, beyond, 8, &c) == BCDER_BEYOND && c.at == 4 && c.values == 2 && c.depth == 1);
  CHECK(bcder_value(BCDER_BER, beyond, 8, &c) == BCDER_OK && c.at == 2 && c.values == 1 && c.depth == 1);
  static const uint8_t ended[] = {0x30, 0x80, 0x05, 0x00};
  CHECK(bcder_check(BCDER_BER, ended, 4, &c) == BCDER_ENDED && c.at == 4 && c.values == 2 && c.depth == 2);
  static const uint8_t absent[] = {0x30, 0x80, 0x05, 0x00, 0x00, 0x01};
  CHECK(bcder_check(BCDER_BER, absent, 6, &c) == BCDER_ABSENT && c.at == 4);
  printf("statuses: as the header says\n");
}

/* ---- longer contents octets */

static void longer_contents(void) {
  uint8_t w[1100];
  memset(w, 0, sizeof w);
  for (size_t n = 4; n <= 18; n++)
    for (unsigned i = 0; i < 256; i++) {
      w[0] = (uint8_t)i;
      for (unsigned j = 0; j < 256; j++) {
        w[1] = (uint8_t)j; w[n - 1] = (uint8_t)(i ^ j);
        contents(w, n);
      }
    }
  /* 9.2: a primitive BIT STRING has at most 1000 contents octets in CER */
  memset(w, 0, sizeof w);
  for (size_t n = 998; n <= 1003; n++) contents(w, n);
  printf("longer contents octets: as X.690 says\n");
}

/* ---- strings that are cut into segments, by X.690, 8.7, 9.2 and 10.2 */

enum { FULL = 1000 };

/* Appends a segment of so many octets, of which each is its place in the string. */
static size_t segment(uint8_t *w, size_t at, size_t count, size_t *place) {
  w[at++] = 0x04;
  if (count < 0x80) w[at++] = (uint8_t)count;
  else if (count < 0x100) { w[at++] = 0x81; w[at++] = (uint8_t)count; }
  else { w[at++] = 0x82; w[at++] = (uint8_t)(count >> 8); w[at++] = (uint8_t)count; }
  for (size_t i = 0; i < count; i++) w[at++] = (uint8_t)((*place)++ * 7);
  return at;
}

static void of_segments(const size_t *counts, size_t n, bool in_cer) {
  static uint8_t w[5 * FULL + 100], out[5 * FULL];
  size_t at = 0, place = 0, size = 12345;
  for (size_t i = 0; i < n; i++) at = segment(w, at, counts[i], &place);
  for (int mode = 0; mode < 3; mode++) {
    bool is = mode == REF_BER || (mode == REF_CER && in_cer);
    uint8_t status = bcder_string((uint8_t)mode, true, w, at, out, sizeof out, &size);
    CHECK(status == (is ? BCDER_OK : BCDER_ABSENT));
    if (!is) continue;
    CHECK(size == place);
    for (size_t i = 0; i < place; i++) CHECK(out[i] == (uint8_t)(i * 7));
    if (place > 0) CHECK(bcder_string((uint8_t)mode, true, w, at, NULL, 0, &size) == BCDER_TOO_SMALL && size == place);
  }
}

static void strings_by_hand(void) {
  of_segments((size_t[]){FULL, 1}, 2, true);
  of_segments((size_t[]){FULL, FULL}, 2, true);
  of_segments((size_t[]){FULL, FULL, 999}, 3, true);
  of_segments((size_t[]){FULL, FULL, FULL, FULL}, 4, true);
  of_segments((size_t[]){0}, 0, false);
  of_segments((size_t[]){FULL}, 1, false);               /* 9.2: it has to be in one piece */
  of_segments((size_t[]){FULL, 0}, 2, false);
  of_segments((size_t[]){999, 1}, 2, false);
  of_segments((size_t[]){FULL, 999, FULL}, 3, false);
  of_segments((size_t[]){FULL, 1001}, 2, false);
  of_segments((size_t[]){1001, 1}, 2, false);
  of_segments((size_t[]){0, 3, 0, 2}, 4, false);

  static const uint8_t nested[] = {0x24, 0x80, 0x04, 0x01, 'a', 0x24, 0x03, 0x04, 0x01, 'b', 0x00, 0x00, 0x04, 0x01, 'c'};
  static const uint8_t other[] = {0x04, 0x01, 'a', 0x0C, 0x01, 'b'}, open[] = {0x24, 0x80, 0x04, 0x01, 'a'};
  uint8_t out[8];
  size_t size = 77;
  CHECK(bcder_string(BCDER_BER, true, nested, sizeof nested, out, sizeof out, &size) == BCDER_OK && size == 3);
  CHECK(memcmp(out, "abc", 3) == 0);
  CHECK(bcder_string(BCDER_CER, true, nested, sizeof nested, out, sizeof out, &size) == BCDER_ABSENT && size == 3);
  CHECK(bcder_string(BCDER_BER, true, other, sizeof other, out, sizeof out, &size) == BCDER_ABSENT);
  CHECK(bcder_string(BCDER_BER, true, open, sizeof open, out, sizeof out, &size) == BCDER_ABSENT);
  CHECK(bcder_string(BCDER_BER, true, NULL, 0, NULL, 0, &size) == BCDER_OK && size == 0);
  CHECK(bcder_string(BCDER_DER, false, NULL, 0, NULL, 0, &size) == BCDER_OK && size == 0);
  for (unsigned rules = 3; rules < 256; rules++) {
    size = 77;
    CHECK(bcder_string((uint8_t)rules, false, other, 6, out, sizeof out, &size) == BCDER_UNKNOWN_RULES && size == 77);
    CHECK(bcder_string((uint8_t)rules, true, other, 6, out, sizeof out, &size) == BCDER_UNKNOWN_RULES && size == 77);
  }
  /* 2.999 of X.690, 8.19.5; the least and the greatest of each first component; a UUID of 2.25 */
  static const struct { uint8_t octets[24]; size_t n; const char *text; } rows[] = {
    {{0x88, 0x37, 0x03}, 3, "2.999.3"}, {{0x00}, 1, "0.0"}, {{0x27}, 1, "0.39"}, {{0x28}, 1, "1.0"}, {{0x4F}, 1, "1.39"},
    {{0x50}, 1, "2.0"}, {{0x55, 0x04, 0x03}, 3, "2.5.4.3"}, {{0x2A, 0x86, 0x48, 0x86, 0xF7, 0x0D}, 6, "1.2.840.113549"},
    {{0x2A, 0x80, 0x01}, 3, "1.2.1"},
    {{0x69, 0x83, 0xFF, 0xFF, 0xFF, 0xFF, 0xFF, 0xFF, 0xFF, 0xFF, 0xFF, 0xFF, 0xFF, 0xFF, 0xFF, 0xFF, 0xFF, 0xFF, 0xFF, 0x7F}, 20,
     "2.25.340282366920938463463374607431768211455"},
    {{0x83, 0xFF, 0xFF, 0xFF, 0xFF, 0xFF, 0xFF, 0xFF, 0xFF, 0xFF, 0xFF, 0xFF, 0xFF, 0xFF, 0xFF, 0xFF, 0xFF, 0xFF, 0x7F}, 19,
     "2.340282366920938463463374607431768211375"},
  };
  char text[64];
  for (size_t i = 0; i < sizeof rows / sizeof *rows; i++) {
    size_t length = strlen(rows[i].text);
    CHECK(bcder_oid_text(rows[i].octets, rows[i].n, text, sizeof text, &size) == BCDER_OK && size == length);
    CHECK(memcmp(text, rows[i].text, length) == 0);
    identifier_text(rows[i].octets, rows[i].n);
  }
  static const uint8_t large[] = {0x69, 0x84, 0x80, 0x80, 0x80, 0x80, 0x80, 0x80, 0x80, 0x80, 0x80, 0x80, 0x80, 0x80, 0x80, 0x80, 0x80, 0x80, 0x80, 0x80, 0x00};
  CHECK(bcder_oid_text(large, sizeof large, text, sizeof text, &size) == BCDER_ABSENT && bcder_oid(large, sizeof large) == BCDER_OK);
  CHECK(bcder_oid_text(NULL, 0, text, sizeof text, &size) == BCDER_ABSENT);

  static const uint8_t zero[] = {0x00}, least[] = {0x80, 0x00};
  CHECK(bcder_magnitude(zero, 1, NULL, 0, &size) == BCDER_OK && size == 0);
  CHECK(bcder_magnitude(least, 2, out, sizeof out, &size) == BCDER_OK && size == 2 && out[0] == 0x80 && out[1] == 0x00);
  CHECK(bcder_magnitude(NULL, 0, out, sizeof out, &size) == BCDER_ABSENT && size == 2);
  printf("strings: as X.690 says\n");
}

/* ---- deep values */

enum { LEVELS = 1000000 };

static void deep(void) {
  bcder_checked_t c;
  size_t n = 4 * (size_t)LEVELS;
  uint8_t *w = malloc(n);
  size_t *stack = malloc(LEVELS * sizeof *stack);
  CHECK(w != NULL && stack != NULL);
  for (size_t i = 0; i < LEVELS; i++) { w[2 * i] = 0x30; w[2 * i + 1] = 0x80; }
  memset(w + 2 * (size_t)LEVELS, 0, 2 * (size_t)LEVELS);
  for (uint8_t rules = BCDER_BER; rules <= BCDER_CER; rules++) {
    CHECK(bcder_check(rules, w, n, &c) == BCDER_OK && c.at == n && c.values == LEVELS && c.depth == LEVELS);
    CHECK(bcder_value(rules, w, n, &c) == BCDER_OK && c.at == n && c.values == LEVELS && c.depth == LEVELS);
    CHECK(bcder_check_within(rules, w, n, LEVELS, &c) == BCDER_OK && c.depth == LEVELS);
    CHECK(bcder_check_within(rules, w, n, LEVELS - 1, &c) == BCDER_TOO_DEEP && c.depth == LEVELS - 1 && c.at == n / 2 - 2);
    CHECK(bcder_check(rules, w, n - 2, &c) == BCDER_ENDED && c.at == n - 2 && c.depth == LEVELS);
    CHECK(bcder_check_on(rules, w, n, stack, LEVELS, &c) == BCDER_OK && c.at == n && c.values == LEVELS && c.depth == LEVELS);
    CHECK(bcder_check_on(rules, w, n, stack, LEVELS - 1, &c) == BCDER_TOO_DEEP && c.depth == LEVELS - 1 && c.at == n / 2 - 2);
  }
  CHECK(bcder_check(BCDER_DER, w, n, &c) == BCDER_ABSENT && c.at == 0);
  free(w);

  /* of definite length, from the innermost out */
  size_t room = 6 * (size_t)LEVELS, at = room;
  w = malloc(room);
  CHECK(w != NULL);
  for (size_t i = 0; i < LEVELS; i++) {
    size_t len = room - at;
    if (len < 0x80) w[--at] = (uint8_t)len;
    else {
      size_t k = 0;
      for (size_t v = len; v != 0; v >>= 8, k++) w[--at] = (uint8_t)v;
      w[--at] = (uint8_t)(0x80 + k);
    }
    w[--at] = 0x30;
  }
  for (uint8_t rules = BCDER_BER; rules <= BCDER_DER; rules++) {
    uint8_t wanted = rules == BCDER_CER ? BCDER_ABSENT : BCDER_OK;
    CHECK(bcder_check(rules, w + at, room - at, &c) == wanted);
    if (wanted == BCDER_OK) CHECK(c.at == room - at && c.values == LEVELS && c.depth == LEVELS);
    CHECK(bcder_check_on(rules, w + at, room - at, stack, LEVELS, &c) == wanted);
    if (wanted == BCDER_OK) CHECK(c.at == room - at && c.values == LEVELS && c.depth == LEVELS);
  }
  CHECK(bcder_check(BCDER_DER, w + at, room - at - 1, &c) == BCDER_BEYOND && c.at == 0);
  free(w);
  free(stack);
  printf("deep values: %d levels of either form of length\n", LEVELS);
}

int main(void) {
  statuses();
  longer_contents();
  deep();
  strings_by_hand();
  longer_lists();
  short_lists();
  printf("all as it should be\n");
  return 0;
}
