/* The walk by libtasn1, in a file of its own: its header and OpenSSL's can't be read together. */
#include <libtasn1.h>
#include <stddef.h>

size_t walk_tasn1(const unsigned char *p, int len);

size_t walk_tasn1(const unsigned char *p, int len) {
  size_t met = 0;
  while (len > 0) {
    unsigned char class;
    int head, size, step;
    unsigned long number;
    if (asn1_get_tag_der(p, len, &class, &head, &number) != ASN1_SUCCESS) return 0;
    long inside = asn1_get_length_der(p + head, len - head, &size);
    if (inside < 0 || head + size + inside > len) return 0;
    met++;
    if (class & ASN1_CLASS_STRUCTURED) met += walk_tasn1(p + head + size, (int)inside);
    step = head + size + (int)inside;
    p += step, len -= step;
  }
  return met;
}
