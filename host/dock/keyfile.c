/* Private host keys from files: PEM as libcrypto reads it, and OpenSSH's own form (openssh-key-v1) without a passphrase. */
#include "dock.h"
#include <errno.h>
#include <openssl/bio.h>
#include <openssl/crypto.h>
#include <openssl/err.h>
#include <openssl/pem.h>
#include <string.h>

static const char mark[] = "openssh-key-v1"; /* with its final 0 */

static bool skip(span *rest, size_t n)
{
    if (rest->len < n) return false;
    rest->at += n;
    rest->len -= n;
    return true;
}

/* The private section: two equal check numbers, the type, and the type's fields; a comment and padding follow. */
static EVP_PKEY *read_private_section(span rest)
{
    span type, curve, value, secret, n, e, d;
    if (rest.len < 8 || memcmp(rest.at, rest.at + 4, 4) != 0 || !skip(&rest, 8) || !take_string(&rest, &type)) return NULL;
    if (span_is(type, "ssh-ed25519")) {
        if (!take_string(&rest, &value) || !take_string(&rest, &secret) || secret.len != 64) return NULL;
        return ed25519_key(value, (span){secret.at, 32}); /* the seed, then the public key once more */
    }
    if (span_is(type, "ssh-rsa")) {
        if (!take_positive(&rest, &n) || !take_positive(&rest, &e) || !take_positive(&rest, &d)) return NULL;
        return rsa_key(n, e, d);
    }
    for (size_t i = 0; i < scheme_count; i++)
        if (schemes[i].kind == KEY_ECDSA && span_is(type, schemes[i].key_type)) {
            if (!take_string(&rest, &curve) || !take_string(&rest, &value) || !take_positive(&rest, &secret)) return NULL;
            return ecdsa_key(schemes[i].group, value, secret);
        }
    return NULL;
}

static EVP_PKEY *read_openssh(span rest)
{
    span cipher, kdf, options, public_key, section;
    if (rest.len < sizeof mark || memcmp(rest.at, mark, sizeof mark) != 0 || !skip(&rest, sizeof mark)) return NULL;
    if (!take_string(&rest, &cipher) || !span_is(cipher, "none") || !take_string(&rest, &kdf) || !take_string(&rest, &options)) return NULL;
    if (!skip(&rest, 4) || !take_string(&rest, &public_key) || !take_string(&rest, &section)) return NULL;
    return read_private_section(section);
}

/* In place of a prompt. */
static int no_passphrase(char *buffer, int size, int writing, void *context)
{
    (void)buffer, (void)size, (void)writing, (void)context;
    return -1;
}

static EVP_PKEY *read_private_key(BIO *file)
{
    char *name = NULL, *header = NULL;
    uint8_t *data = NULL;
    long len = 0;
    EVP_PKEY *key = NULL;
    bool openssh = PEM_read_bio(file, &name, &header, &data, &len) == 1 && strcmp(name, "OPENSSH PRIVATE KEY") == 0;
    if (openssh) key = read_openssh((span){data, (size_t)len});
    OPENSSL_free(name);
    OPENSSL_free(header);
    OPENSSL_clear_free(data, (size_t)len);
    if (!openssh && BIO_seek(file, 0) >= 0) key = PEM_read_bio_PrivateKey(file, NULL, no_passphrase, NULL);
    ERR_clear_error();
    return key;
}

bool load_host_key(const char *path, struct host_key *k)
{
    memset(k, 0, sizeof *k);
    errno = 0;
    BIO *file = BIO_new_file(path, "r");
    if (file == NULL) return trouble("%s: %s", path, strerror(errno));
    k->key = read_private_key(file);
    BIO_free(file);
    if (k->key == NULL) return trouble("%s: no private key without a passphrase, in PEM or OpenSSH form", path);
    if (!describe_host_key(k)) {
        EVP_PKEY_free(k->key);
        k->key = NULL;
        return trouble("%s: neither Ed25519, nor ECDSA with a NIST curve, nor RSA of 2048 bits or more", path);
    }
    return true;
}
