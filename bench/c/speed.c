/* speed FILE..: nanoseconds of processor time for an octet, the least of 15 rounds, over all files. Each file
 * is a certificate or a list of revoked ones in DER. A walk visits each header. */
#include "bcder.h"
#include <openssl/asn1.h>
#include <openssl/x509.h>
#include <stdio.h>
#include <stdlib.h>
#include <time.h>

typedef struct { uint8_t *data; size_t len; } file_t;

static size_t all_checked(const file_t *f) {
  bcder_checked_t checked;
  return bcder_check(BCDER_DER, f->data, f->len, &checked) == BCDER_OK ? checked.values : 0;
}

/* Walks by the events, with a stack for 64 open values. */
static size_t all_events(const file_t *f) {
  size_t stack[64], met = 0;
  bcder_walk_t walk = {0, f->len, 0};
  bcder_event_t event;
  while (bcder_next(BCDER_DER, f->data, f->len, stack, 64, &walk, &event) == BCDER_OK) met += event.kind != BCDER_END;
  return met;
}

/* Whether the contents octets are those of a value of their universal type, which is read. */
static bool is_typed(const bcder_heading_t *h, const bcder_reader_t *c) {
  bool truth, negative;
  int64_t number;
  uint8_t unused;
  if (h->cls != 0) return true;
  switch (h->number) {
  case 1: return bcder_bool(BCDER_DER, c->data, c->len, &truth) == BCDER_OK;
  case 2:
    return (c->len <= 8 ? bcder_i64(c->data, c->len, &number) : bcder_integer(c->data, c->len, &negative)) == BCDER_OK;
  case 3: return bcder_bits(BCDER_DER, c->data, c->len, &unused) == BCDER_OK;
  case 5: return bcder_null(c->data, c->len) == BCDER_OK;
  case 6: return bcder_oid(c->data, c->len) == BCDER_OK;
  case 12: return bcder_utf8(c->data, c->len) == BCDER_OK;
  case 19: return bcder_printable(c->data, c->len) == BCDER_OK;
  case 22: return bcder_ia5(c->data, c->len) == BCDER_OK;
  default: return true;
  }
}

/* Walks by the readers of the header, and reads primitive values by their universal types. */
static size_t walk_typed(bcder_reader_t from) {
  size_t met = 0;
  while (!bcder_is_empty(&from)) {
    bcder_heading_t h;
    bcder_reader_t contents;
    if (bcder_take(&from, &h, &contents) != BCDER_OK) return 0;
    met += h.constructed || is_typed(&h, &contents);
    if (h.constructed) met += walk_typed(contents);
  }
  return met;
}
static size_t all_typed(const file_t *f) { return walk_typed(bcder_reader(BCDER_DER, f->data, f->len)); }

/* Walks by the readers of the header. */
static size_t walk_readers(bcder_reader_t from) {
  size_t met = 0;
  while (!bcder_is_empty(&from)) {
    bcder_heading_t h;
    bcder_reader_t contents;
    if (bcder_take(&from, &h, &contents) != BCDER_OK) return 0;
    met++;
    if (h.constructed) met += walk_readers(contents);
  }
  return met;
}
static size_t all_read(const file_t *f) { return walk_readers(bcder_reader(BCDER_DER, f->data, f->len)); }

static size_t walk_openssl(const unsigned char *p, long len) {
  size_t met = 0;
  const unsigned char *end = p + len;
  while (p < end) {
    long inside;
    int tag, class, form = ASN1_get_object(&p, &inside, &tag, &class, end - p);
    if (form & 0x80) return 0;
    met++;
    if (form & V_ASN1_CONSTRUCTED) met += walk_openssl(p, inside);
    p += inside;
  }
  return met;
}
static size_t all_openssl(const file_t *f) { return walk_openssl(f->data, (long)f->len); }

size_t walk_tasn1(const unsigned char *p, int len);
static size_t all_tasn1(const file_t *f) { return walk_tasn1(f->data, (int)f->len); }

static size_t all_d2i(const file_t *f) {
  const unsigned char *p = f->data;
  X509 *x = d2i_X509(NULL, &p, (long)f->len);
  X509_free(x);
  if (x != NULL) return 1;
  p = f->data;
  X509_CRL *crl = d2i_X509_CRL(NULL, &p, (long)f->len);
  X509_CRL_free(crl);
  return crl != NULL;
}

static uint8_t room[1 << 25];
static size_t converted(const file_t *f, uint8_t to) {
  size_t size;
  return bcder_convert(BCDER_DER, to, f->data, f->len, room, sizeof room, &size) == BCDER_OK ? size : 0;
}
static size_t to_cer(const file_t *f) { return converted(f, BCDER_CER); }
static size_t to_der(const file_t *f) { return converted(f, BCDER_DER); }

static double now(void) {
  struct timespec t;
  clock_gettime(CLOCK_PROCESS_CPUTIME_ID, &t);
  return (double)t.tv_sec + (double)t.tv_nsec * 1e-9;
}

int main(int argc, char **argv) {
  static const struct { const char *name; size_t (*run)(const file_t *); } ways[] = {
    {"bcder_check", all_checked}, {"bcder_take, each value", all_read},
    {"bcder_next, each value and end", all_events}, {"bcder_take, and read by its type", all_typed},
    {"ASN1_get_object (OpenSSL), each value", all_openssl},
    {"asn1_get_tag_der (libtasn1), each value", all_tasn1}, {"d2i_X509, d2i_X509_CRL (OpenSSL)", all_d2i},
    {"bcder_convert, to CER", to_cer}, {"bcder_convert, to DER", to_der}};
  enum { WAYS = sizeof ways / sizeof *ways };
  size_t count = 0, octets = 0;
  file_t *files = calloc((size_t)argc, sizeof *files);
  for (int i = 1; i < argc; i++) {
    FILE *f = fopen(argv[i], "rb");
    if (f == NULL) return 2;
    uint8_t *data = malloc(1 << 24);
    size_t len = fread(data, 1, 1 << 24, f);
    fclose(f);
    files[count++] = (file_t){realloc(data, len), len};
    octets += len;
  }
  double best[WAYS];
  size_t met[WAYS];
  for (int w = 0; w < WAYS; w++) best[w] = 1e9;
  size_t times = octets < 2000000 ? 2000000 / (octets + 1) + 1 : 1;
  for (int round = 0; round < 15; round++)
    for (int w = 0; w < WAYS; w++) {
      double begun = now();
      for (size_t t = 0; t < times; t++) {
        met[w] = 0;
        for (size_t i = 0; i < count; i++) met[w] += ways[w].run(&files[i]);
      }
      double took = (now() - begun) / (double)times;
      if (took < best[w]) best[w] = took;
    }
  printf("%zu files, %zu octets\n", count, octets);
  for (int w = 0; w < WAYS; w++) printf("%8.3f ns an octet  %-42s (%zu)\n", best[w] * 1e9 / (double)octets, ways[w].name, met[w]);
  for (int w = 1; w < 6; w++)
    if (met[w] != met[0]) return 1;
  return met[6] == count ? 0 : 1;
}
