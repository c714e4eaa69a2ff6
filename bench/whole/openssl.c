/* The same by OpenSSL, whose readers keep some parts as they stand until they are asked for. */
#include <openssl/x509.h>
#include <stdio.h>
#include <stdlib.h>
#include <string.h>

static size_t certificates(const unsigned char *at, size_t len) {
    const unsigned char *end = at + len;
    size_t all = 0;
    while (at < end) {
        X509 *read = d2i_X509(NULL, &at, end - at);
        if (!read) return (size_t)-1;
        all += X509_NAME_entry_count(X509_get_issuer_name(read));
        all += X509_NAME_entry_count(X509_get_subject_name(read));
        all += X509_get_ext_count(read) < 0 ? 0 : X509_get_ext_count(read);
        X509_free(read);
    }
    return all;
}

static size_t list(const unsigned char *at, size_t len) {
    X509_CRL *read = d2i_X509_CRL(NULL, &at, len);
    if (!read) return (size_t)-1;
    size_t all = sk_X509_REVOKED_num(X509_CRL_get_REVOKED(read));
    X509_CRL_free(read);
    return all;
}

int main(int count, char **words) {
    if (count != 4) return 1;
    FILE *file = fopen(words[1], "rb");
    if (!file) return 1;
    fseek(file, 0, SEEK_END);
    size_t len = ftell(file), found = 0;
    rewind(file);
    unsigned char *octets = malloc(len);
    if (!octets || fread(octets, 1, len, file) != len) return 1;
    for (int it = atoi(words[3]); it > 0; it--)
        found = strcmp(words[2], "list") ? certificates(octets, len) : list(octets, len);
    printf("%zu\n", found);
    return 0;
}
