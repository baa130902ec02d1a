/* A certificate for TLS, and its key, as texts in memory. */
#ifndef CERTIFICATE_H
#define CERTIFICATE_H

#include <stdbool.h>

enum { FINGERPRINT = 32 * 3 };

typedef struct {
    char *key, *certificate;       /* PEM */
    char fingerprint[FINGERPRINT]; /* by SHA-256, as clients show it */
} Certificate;

/* One that is made here and stands in no file. Where it can't be, says why. */
bool certificate_make(Certificate *certificate);

/* That of two files. Where they can't be read, says why. */
bool certificate_read(Certificate *certificate, const char *certificate_name, const char *key_name);

#endif
