/* A certificate for TLS, and its key, as texts in memory. */
#define _GNU_SOURCE
#include "certificate.h"

#include <errno.h>
#include <stdio.h>
#include <stdlib.h>
#include <string.h>

#include <openssl/bio.h>
#include <openssl/evp.h>
#include <openssl/pem.h>
#include <openssl/rsa.h>
#include <openssl/x509.h>

#include "say.h"

enum { BITS = 2048, DAYS = 30, MOST_FILE = 100000 };

static char *text_of(BIO *bio)
{
    char *bytes;
    long size = BIO_get_mem_data(bio, &bytes);
    return size > 0 ? strndup(bytes, (size_t)size) : NULL;
}

static bool is_valid_from_now(X509 *x509)
{
    return X509_gmtime_adj(X509_getm_notBefore(x509), -3600L) &&
           X509_gmtime_adj(X509_getm_notAfter(x509), DAYS * 86400L);
}

/* Of the name localhost, signed by its own key. */
static X509 *sign(EVP_PKEY *key)
{
    X509 *x509 = X509_new();
    X509_NAME *name = x509 ? X509_get_subject_name(x509) : NULL;
    if (name && X509_set_version(x509, 2) && ASN1_INTEGER_set(X509_get_serialNumber(x509), 1) &&
        is_valid_from_now(x509) &&
        X509_NAME_add_entry_by_txt(name, "CN", MBSTRING_ASC, (const unsigned char *)"localhost", -1, -1, 0) &&
        X509_set_issuer_name(x509, name) && X509_set_pubkey(x509, key) && X509_sign(x509, key, EVP_sha256()))
        return x509;
    X509_free(x509);
    return NULL;
}

static bool put_fingerprint(Certificate *certificate, const X509 *x509)
{
    unsigned char digest[EVP_MAX_MD_SIZE];
    unsigned size;
    if (!X509_digest(x509, EVP_sha256(), digest, &size) || size * 3 != FINGERPRINT)
        return false;
    for (unsigned i = 0; i < size; i++)
        snprintf(certificate->fingerprint + 3 * i, 4, i + 1 < size ? "%02x:" : "%02x", digest[i]);
    return true;
}

bool certificate_make(Certificate *certificate)
{
    EVP_PKEY *key = EVP_RSA_gen(BITS);
    X509 *x509 = key ? sign(key) : NULL;
    BIO *key_text = BIO_new(BIO_s_mem()), *text = BIO_new(BIO_s_mem());
    bool is_made = x509 && key_text && text && PEM_write_bio_PrivateKey(key_text, key, NULL, NULL, 0, NULL, NULL) &&
                   PEM_write_bio_X509(text, x509) && put_fingerprint(certificate, x509);
    certificate->key = is_made ? text_of(key_text) : NULL;
    certificate->certificate = is_made ? text_of(text) : NULL;
    BIO_free(key_text);
    BIO_free(text);
    X509_free(x509);
    EVP_PKEY_free(key);
    if (certificate->key && certificate->certificate)
        return true;
    say("OpenSSL makes no certificate: give one by --certificate and --key");
    return false;
}

static char *read_text(const char *name)
{
    FILE *file = fopen(name, "re");
    char *text = file ? calloc(1, MOST_FILE) : NULL;
    if (!text || fread(text, 1, MOST_FILE - 1, file) == 0) {
        say("%s can't be read: %s", name, file && !ferror(file) ? "it is empty" : strerror(errno));
        free(text);
        text = NULL;
    }
    if (file)
        fclose(file);
    return text;
}

bool certificate_read(Certificate *certificate, const char *certificate_name, const char *key_name)
{
    certificate->certificate = read_text(certificate_name);
    certificate->key = certificate->certificate ? read_text(key_name) : NULL;
    if (!certificate->key)
        return false;
    BIO *text = BIO_new_mem_buf(certificate->certificate, -1), *key_text = BIO_new_mem_buf(certificate->key, -1);
    X509 *x509 = text ? PEM_read_bio_X509(text, NULL, NULL, NULL) : NULL;
    EVP_PKEY *key = key_text ? PEM_read_bio_PrivateKey(key_text, NULL, NULL, (void *)"") : NULL;
    bool fits = x509 && key && X509_check_private_key(x509, key) == 1 && put_fingerprint(certificate, x509);
    if (!fits)
        say("%s and %s aren't a certificate and its key, both as PEM and without a password", certificate_name,
            key_name);
    X509_free(x509);
    EVP_PKEY_free(key);
    BIO_free(text);
    BIO_free(key_text);
    return fits;
}
