/* bcder.h: reading BER, CER and DER (ITU-T X.690), accepted exactly as the rules say. C11 and C++.
 *
 * Every function stores its result where it returns BCDER_OK. bcder_value, bcder_check,
 * bcder_check_within and bcder_check_on store what was passed in every case but
 * BCDER_UNKNOWN_RULES; all others store nothing unless they return BCDER_OK, or `size` alone with
 * BCDER_TOO_SMALL, but for bcder_convert when memory runs out. No octet outside (data, len) is
 * read, and each call ends. Nothing is kept between calls, so any number of threads may call. NULL
 * with length 0 is no octets; no other pointer may be NULL. Where a result is stored must not
 * overlap the octets.
 * docs/C.md says more. */
#ifndef BCDER_H
#define BCDER_H
#include <stdbool.h>
#include <stddef.h>
#include <stdint.h>
#ifdef __cplusplus
extern "C" {
#endif

/* the sets of rules */
enum { BCDER_BER = 0, BCDER_CER = 1, BCDER_DER = 2 };

/* what is returned */
enum {
  BCDER_OK = 0,            /* it was done */
  BCDER_UNKNOWN_RULES = 1, /* no set of rules has this number */
  BCDER_NO_MEMORY = 2,     /* malloc failed, for a constructed value */
  BCDER_ABSENT = 3,        /* what was asked for isn't there */
  BCDER_BEYOND = 4,        /* a header gives a value more contents octets than there are */
  BCDER_ENDED = 5,         /* the octets end where a value or its end has to follow */
  BCDER_TOO_DEEP = 6,      /* a value is inside more others than were allowed */
  BCDER_FINISHED = 7,      /* all octets were passed */
  BCDER_MISUSED = 8,       /* the state is none of a walk over these octets */
  BCDER_TOO_SMALL = 9,     /* the buffer has no room for what is to be stored */
  BCDER_NOT_CONVERTED = 10 /* a value is not converted to these rules */
};

/* the header of a value: its identifier octets and length octets */
typedef struct {
  size_t size;        /* the number of these octets; the contents octets follow them */
  size_t len;         /* the number of contents octets, or 0 if the length is indefinite */
  uint32_t number;    /* the number of the tag, at most 2097151 */
  uint8_t cls;        /* the class: 0 universal, 1 application, 2 context-specific, 3 private */
  bool constructed;   /* whether the encoding is constructed */
  bool indefinite;    /* whether end-of-contents octets end the contents */
} bcder_heading_t;

/* how far octets were passed as values, from the front */
typedef struct {
  size_t at;          /* the number of octets that were passed */
  size_t values;      /* the number of values that were met, with those inside others */
  size_t depth;       /* the number of values one inside the other, at most */
} bcder_checked_t;

/* where a walk over octets is: at the start {0, len, 0} */
typedef struct {
  size_t at;          /* the number of octets that were passed */
  size_t end;         /* where the innermost open value of definite length ends, or the octets */
  size_t depth;       /* the number of open values */
} bcder_walk_t;

/* the kinds of events */
enum {
  BCDER_PRIMITIVE = 0, /* a primitive value */
  BCDER_BEGIN = 1,     /* the beginning of a constructed value */
  BCDER_END = 2        /* its end */
};

/* a value, or the end of one */
typedef struct {
  bcder_heading_t heading; /* the header; at an end `size` counts end-of-contents octets, the rest is 0 */
  size_t at;               /* where the header or the end begins */
  size_t depth;            /* the number of values around the value */
  uint8_t kind;            /* BCDER_PRIMITIVE, BCDER_BEGIN or BCDER_END */
} bcder_event_t;

/* Reads the header at the front. ABSENT: no prefix of the octets is a header that the rules allow.
 * Whether the contents octets are all there isn't checked. */
uint8_t bcder_heading(uint8_t rules, const uint8_t *data, size_t len, bcder_heading_t *heading);
/* Stores how many end-of-contents octets are at the front. ABSENT: there are none. */
uint8_t bcder_end(uint8_t rules, const uint8_t *data, size_t len, size_t *size);

/* Passes the value at the front: `at` is its number of octets. ABSENT, BEYOND, ENDED: no prefix of
 * the octets is the encoding of a value, and after `at` octets it was seen why: no header or end
 * stands there, one of a value that isn't all there, or nothing. Any depth; memory by malloc. */
uint8_t bcder_value(uint8_t rules, const uint8_t *data, size_t len, bcder_checked_t *checked);
/* The same of all octets: OK exactly if they are encodings of values, one after the other. */
uint8_t bcder_check(uint8_t rules, const uint8_t *data, size_t len, bcder_checked_t *checked);
/* The same, for values of a depth of at most `levels`. TOO_DEEP: after `at` octets a value begins
 * inside `levels` others. It takes no more memory than values of that depth do. */
uint8_t bcder_check_within(uint8_t rules, const uint8_t *data, size_t len, size_t levels, bcder_checked_t *checked);
/* The same without memory: `stack` has room for `room` constructed values, one inside the other; with no room
 * it may be NULL. What is in it before and after doesn't matter. TOO_DEEP: after `at` octets a constructed value
 * begins inside `room` others. */
uint8_t bcder_check_on(uint8_t rules, const uint8_t *data, size_t len, size_t *stack, size_t room,
                       bcder_checked_t *checked);

/* Goes to the next value or end, and stores it. `stack` has room for `room` open values, and belongs
 * to the walk until its end, as `walk` does; with no room it may be NULL. FINISHED: all octets were
 * passed, and are values. ABSENT, BEYOND, ENDED: at `walk->at` no value begins, as bcder_check says,
 * and none ends, so they are no values. TOO_DEEP: a constructed value begins, and the stack has no room
 * for it. MISUSED: exactly if `walk`, `room` and the innermost number of `stack` stand for no open values.
 * Except for OK, nothing is changed. No memory is allocated. */
uint8_t bcder_next(uint8_t rules, const uint8_t *data, size_t len, size_t *stack, size_t room,
                   bcder_walk_t *walk, bcder_event_t *event);

/* Contents octets of primitive values. ABSENT: they are not those of such a value. */
uint8_t bcder_bool(uint8_t rules, const uint8_t *data, size_t len, bool *truth);     /* BOOLEAN */
uint8_t bcder_null(const uint8_t *data, size_t len);                                 /* NULL */
uint8_t bcder_i64(const uint8_t *data, size_t len, int64_t *number);                 /* INTEGER */
uint8_t bcder_u64(const uint8_t *data, size_t len, uint64_t *number);                /* INTEGER */
uint8_t bcder_integer(const uint8_t *data, size_t len, bool *negative); /* INTEGER of any size: the
        octets are the number in two's complement, the most significant first, in the fewest */
uint8_t bcder_magnitude(const uint8_t *data, size_t len, uint8_t *out, size_t room, size_t *size); /* INTEGER
        of any size: the octets of the number without its sign, the most significant first, none for 0.
        They are never more than `len` */
uint8_t bcder_bits(uint8_t rules, const uint8_t *data, size_t len, uint8_t *unused); /* BIT STRING: the
        bits are in the octets after the first, but for `unused` of the last */
uint8_t bcder_oid(const uint8_t *data, size_t len);                       /* OBJECT IDENTIFIER */
uint8_t bcder_oid_text(const uint8_t *data, size_t len, char *out, size_t room, size_t *size); /* the same, as
        its components in decimal, joined by dots, with no zero behind them; each is below 2^128 */
uint8_t bcder_utf8(const uint8_t *data, size_t len);                      /* UTF8String */
uint8_t bcder_numeric(const uint8_t *data, size_t len);                   /* NumericString */
uint8_t bcder_printable(const uint8_t *data, size_t len);                 /* PrintableString */
uint8_t bcder_ia5(const uint8_t *data, size_t len);                       /* IA5String */

/* The octets of an OCTET STRING, or of a type that is encoded as one: its contents octets, or, if the value
 * is constructed, those of the segments in them. They are never more than `len`. ABSENT: the rules allow no
 * such string. Memory, by malloc, only for segments that are constructed.
 *
 * bcder_string, bcder_magnitude and bcder_oid_text store octets at `out`, which has room for `room` of them;
 * with no room it may be NULL. `size` is their number. TOO_SMALL: there is no room for all of them, `size`
 * says how much is needed, and `out` is as it was. */
uint8_t bcder_string(uint8_t rules, bool constructed, const uint8_t *data, size_t len, uint8_t *out, size_t room,
                     size_t *size);

/* The values that octets encode in the rules `from`, encoded in the rules `to`. They go to `out`,
 * as those of bcder_string do. Time and memory are linear in `len`, at any depth; memory by malloc.
 *
 * To BER the octets stay as they are. To CER and DER headers are written anew, the octet of a
 * boolean that is true becomes FF, and strings get the form of `to`: DER has them in one piece, CER
 * cuts those of more than 1000 octets. They may be cut before in any way that BER allows. All other
 * contents octets stay. ABSENT: the octets are no values in `from`. NOT_CONVERTED: they are, but to
 * CER or DER one of them is
 *   - a boolean that is constructed, or that hasn't one octet,
 *   - a bit string that is constructed, or has unused bits that aren't zero, or isn't one by its
 *     octets, or to CER has more than 1000 of them,
 *   - a constructed string with values inside that are no OCTET STRINGs,
 *   - to DER, a value whose contents octets would be 2^32 or more.
 * These types are known by their universal tags alone. So the result is a list of encodings in
 * `to`, but not promised are the order of the values in a SET or a SET OF, that DEFAULT values are
 * left out, and the form of strings and booleans under other tags, which stay as they are. After
 * NO_MEMORY `out` may have changed. */
uint8_t bcder_convert(uint8_t from, uint8_t to, const uint8_t *data, size_t len, uint8_t *out,
                      size_t room, size_t *size);

/* ---- Readers, over the functions above. They are not proved. ----
 *
 * A reader is octets that are left. Each take reads the next value from its front. It returns
 * BCDER_OK and moves the reader behind the value, or leaves the reader as it is: BCDER_ABSENT if no
 * value of the tag and form comes next, or its contents octets mean nothing; or what bcder_value
 * returns. The contents of a value of definite length are read when they are taken. */
typedef struct {
  const uint8_t *data; /* the octets that are left */
  size_t len;          /* their number */
  uint8_t rules;       /* BCDER_BER, BCDER_CER or BCDER_DER */
} bcder_reader_t;

/* identifier octets' class and number, as a number: a tag for the takes below */
#define BCDER_UNIVERSAL(number) ((uint32_t)(number))
#define BCDER_APPLICATION(number) (UINT32_C(1) << 30 | (uint32_t)(number))
#define BCDER_CONTEXT(number) (UINT32_C(2) << 30 | (uint32_t)(number))
#define BCDER_PRIVATE(number) (UINT32_C(3) << 30 | (uint32_t)(number))

static inline const char *bcder_error_text(uint8_t status) {
  switch (status) {
  case BCDER_OK: return "done";
  case BCDER_UNKNOWN_RULES: return "no set of rules has this number";
  case BCDER_NO_MEMORY: return "out of memory";
  case BCDER_ABSENT: return "what was asked for isn't there";
  case BCDER_BEYOND: return "a value with more contents octets than there are";
  case BCDER_ENDED: return "the octets end inside a value";
  case BCDER_TOO_DEEP: return "a value inside more others than are allowed";
  case BCDER_FINISHED: return "all octets were passed";
  case BCDER_MISUSED: return "the state is none of a walk over these octets";
  case BCDER_TOO_SMALL: return "the buffer has no room for what is to be stored";
  case BCDER_NOT_CONVERTED: return "a value that is not converted to these rules";
  default: return "no such status";
  }
}

static inline bcder_reader_t bcder_reader(uint8_t rules, const uint8_t *data, size_t len) {
  bcder_reader_t reader = {data, len, rules};
  return reader;
}

/* Whether no octets are left: to be asked after the last take. */
static inline bool bcder_is_empty(const bcder_reader_t *from) { return from->len == 0; }

/* The next value, whatever it is: its header, and its contents. */
static inline uint8_t bcder_take(bcder_reader_t *from, bcder_heading_t *heading, bcder_reader_t *contents) {
  bcder_heading_t h;
  bcder_checked_t passed;
  size_t len, size = 0;
  uint8_t status = bcder_heading(from->rules, from->data, from->len, &h);
  if (status != BCDER_OK) return status;
  const uint8_t *data = from->data + h.size;
  size_t left = from->len - h.size;
  if (!h.indefinite) {
    if (h.len > left) return BCDER_BEYOND;
    len = h.len;
  } else {
    for (len = 0; bcder_end(from->rules, data + len, left - len, &size) != BCDER_OK; len += passed.at) {
      status = bcder_value(from->rules, data + len, left - len, &passed);
      if (status != BCDER_OK) return status;
    }
  }
  *heading = h;
  *contents = bcder_reader(from->rules, data, len);
  *from = bcder_reader(from->rules, data + len + size, left - len - size);
  return BCDER_OK;
}

/* The next value, if it has this tag and form. */
static inline uint8_t bcder_take_tag(bcder_reader_t *from, uint32_t tag, bool constructed, bcder_reader_t *contents) {
  bcder_heading_t h;
  bcder_reader_t ahead = *from, inside;
  uint8_t status = bcder_take(&ahead, &h, &inside);
  if (status != BCDER_OK) return status;
  if (((uint32_t)h.cls << 30 | h.number) != tag || h.constructed != constructed) return BCDER_ABSENT;
  *contents = inside;
  *from = ahead;
  return BCDER_OK;
}

/* The same of a value that may be left out: `there` is whether the next value has this tag and form. */
static inline uint8_t bcder_take_opt_tag(bcder_reader_t *from, uint32_t tag, bool constructed, bool *there,
                                         bcder_reader_t *contents) {
  bcder_heading_t h;
  bcder_reader_t ahead = *from, inside;
  *there = false;
  if (bcder_is_empty(from)) return BCDER_OK;
  uint8_t status = bcder_take(&ahead, &h, &inside);
  if (status != BCDER_OK) return status;
  if (((uint32_t)h.cls << 30 | h.number) != tag || h.constructed != constructed) return BCDER_OK;
  *there = true;
  *contents = inside;
  *from = ahead;
  return BCDER_OK;
}

static inline uint8_t bcder_take_sequence(bcder_reader_t *from, bcder_reader_t *contents) {
  return bcder_take_tag(from, BCDER_UNIVERSAL(16), true, contents);
}

static inline uint8_t bcder_take_set(bcder_reader_t *from, bcder_reader_t *contents) {
  return bcder_take_tag(from, BCDER_UNIVERSAL(17), true, contents);
}

static inline uint8_t bcder_take_bool(bcder_reader_t *from, bool *truth) {
  bcder_reader_t ahead = *from, c;
  uint8_t status = bcder_take_tag(&ahead, BCDER_UNIVERSAL(1), false, &c);
  if (status == BCDER_OK) status = bcder_bool(c.rules, c.data, c.len, truth);
  if (status == BCDER_OK) *from = ahead;
  return status;
}

static inline uint8_t bcder_take_i64(bcder_reader_t *from, int64_t *number) {
  bcder_reader_t ahead = *from, c;
  uint8_t status = bcder_take_tag(&ahead, BCDER_UNIVERSAL(2), false, &c);
  if (status == BCDER_OK) status = bcder_i64(c.data, c.len, number);
  if (status == BCDER_OK) *from = ahead;
  return status;
}

static inline uint8_t bcder_take_u64(bcder_reader_t *from, uint64_t *number) {
  bcder_reader_t ahead = *from, c;
  uint8_t status = bcder_take_tag(&ahead, BCDER_UNIVERSAL(2), false, &c);
  if (status == BCDER_OK) status = bcder_u64(c.data, c.len, number);
  if (status == BCDER_OK) *from = ahead;
  return status;
}

/* The contents octets of an object identifier. */
static inline uint8_t bcder_take_oid(bcder_reader_t *from, bcder_reader_t *octets) {
  bcder_reader_t ahead = *from, c;
  uint8_t status = bcder_take_tag(&ahead, BCDER_UNIVERSAL(6), false, &c);
  if (status == BCDER_OK) status = bcder_oid(c.data, c.len);
  if (status == BCDER_OK) *octets = c, *from = ahead;
  return status;
}

/* The octets of an octet string in one piece. */
static inline uint8_t bcder_take_octets(bcder_reader_t *from, bcder_reader_t *octets) {
  return bcder_take_tag(from, BCDER_UNIVERSAL(4), false, octets);
}

#ifdef __cplusplus
}
#endif
#endif
