/* Ephemeral keys, X and K_PQ, from libcrypto: of methods 1 to 6, and of 7 to 9 where it has ML-KEM, as OpenSSL has from 3.5 on. */
#include "dock.h"
#include <openssl/crypto.h>
#include <openssl/ec.h>
#include <string.h>

/* What libcrypto calls the parts of a method; names and lengths are the core's. */
static const struct { const char *type, *group, *kem; } rows[] = {
    [CASTULFRISA_CURVE25519_SHA256] = {"X25519", NULL, NULL},
    [CASTULFRISA_CURVE25519_SHA256_LIBSSH] = {"X25519", NULL, NULL},
    [CASTULFRISA_CURVE448_SHA512] = {"X448", NULL, NULL},
    [CASTULFRISA_NISTP256_SHA256] = {"EC", "prime256v1", NULL},
    [CASTULFRISA_NISTP384_SHA384] = {"EC", "secp384r1", NULL},
    [CASTULFRISA_NISTP521_SHA512] = {"EC", "secp521r1", NULL},
    [CASTULFRISA_MLKEM768_NISTP256_SHA256] = {"EC", "prime256v1", "ML-KEM-768"},
    [CASTULFRISA_MLKEM1024_NISTP384_SHA384] = {"EC", "secp384r1", "ML-KEM-1024"},
    [CASTULFRISA_MLKEM768_X25519_SHA256] = {"X25519", NULL, "ML-KEM-768"},
};

/* Asked of the libcrypto that runs, which may be another than the one that this was compiled for. */
static bool has_kem(const char *name)
{
    EVP_KEYMGMT *found = EVP_KEYMGMT_fetch(NULL, name, NULL);
    bool has = found != NULL;
    EVP_KEYMGMT_free(found);
    return has;
}

bool makes_method(uint64_t method)
{
    return method < sizeof rows / sizeof rows[0] && rows[method].type != NULL && (rows[method].kem == NULL || has_kem(rows[method].kem));
}

/* A new key pair, and its public value at the beginning of out. */
static bool draw(const char *type, const char *group, EVP_PKEY **own, uint8_t *out, size_t room, size_t *len)
{
    EVP_PKEY_CTX *context = EVP_PKEY_CTX_new_from_name(NULL, type, NULL);
    uint8_t *encoded = NULL;
    bool drawn;

    *own = NULL;
    *len = 0;
    drawn = context != NULL && EVP_PKEY_keygen_init(context) > 0
        && (group == NULL || EVP_PKEY_CTX_set_group_name(context, group) > 0)
        && EVP_PKEY_generate(context, own) > 0;
    if (drawn) *len = EVP_PKEY_get1_encoded_public_key(*own, &encoded);
    drawn = drawn && *len > 0 && *len <= room;
    if (drawn) memcpy(out, encoded, *len);
    OPENSSL_free(encoded);
    EVP_PKEY_CTX_free(context);
    if (!drawn) {
        EVP_PKEY_free(*own);
        *own = NULL;
    }
    return drawn;
}

bool draw_ephemeral(uint64_t method, EVP_PKEY **own, uint8_t *out, size_t room, size_t *len)
{
    return draw(rows[method].type, rows[method].group, own, out, room, len);
}

EVP_PKEY *peer_public(EVP_PKEY *own, span value)
{
    EVP_PKEY *peer = EVP_PKEY_new();
    EVP_PKEY_CTX *context = NULL;
    bool good = peer != NULL && EVP_PKEY_copy_parameters(peer, own) > 0
        && EVP_PKEY_set1_encoded_public_key(peer, value.at, value.len) > 0
        && (context = EVP_PKEY_CTX_new_from_pkey(NULL, peer, NULL)) != NULL && EVP_PKEY_public_check(context) > 0;
    EVP_PKEY_CTX_free(context);
    if (!good) {
        EVP_PKEY_free(peer);
        peer = NULL;
    }
    return peer;
}

bool derive_x(EVP_PKEY *own, EVP_PKEY *peer, uint8_t x[CASTULFRISA_X_MOST], size_t *x_count)
{
    EVP_PKEY_CTX *context = EVP_PKEY_CTX_new_from_pkey(NULL, own, NULL);
    *x_count = CASTULFRISA_X_MOST;
    /* The point was checked when it came in: not once more for each draw. */
    bool derived = context != NULL && EVP_PKEY_derive_init(context) > 0 && EVP_PKEY_derive_set_peer_ex(context, peer, 0) > 0
        && EVP_PKEY_derive(context, x, x_count) > 0;
    EVP_PKEY_CTX_free(context);
    return derived;
}

/* ---- the KEM */

bool draw_kem(uint64_t method, EVP_PKEY **own, uint8_t *out, size_t room, size_t *len)
{
    return draw(rows[method].kem, NULL, own, out, room, len);
}

/* libcrypto refuses a key that is none (FIPS 203, 7.2). */
bool encapsulate(uint64_t method, span key, uint8_t *out, size_t room, uint8_t k_pq[CASTULFRISA_K_PQ_SIZE], size_t *k_pq_len)
{
    EVP_PKEY *peer = EVP_PKEY_new_raw_public_key_ex(NULL, rows[method].kem, NULL, key.at, key.len);
    EVP_PKEY_CTX *context = peer == NULL ? NULL : EVP_PKEY_CTX_new_from_pkey(NULL, peer, NULL);
    size_t len = room;
    *k_pq_len = CASTULFRISA_K_PQ_SIZE;
    bool done = context != NULL && EVP_PKEY_encapsulate_init(context, NULL) > 0
        && EVP_PKEY_encapsulate(context, out, &len, k_pq, k_pq_len) > 0 && len == room;
    EVP_PKEY_CTX_free(context);
    EVP_PKEY_free(peer);
    return done;
}

bool decapsulate(EVP_PKEY *own, span ciphertext, uint8_t k_pq[CASTULFRISA_K_PQ_SIZE], size_t *k_pq_len)
{
    EVP_PKEY_CTX *context = EVP_PKEY_CTX_new_from_pkey(NULL, own, NULL);
    *k_pq_len = CASTULFRISA_K_PQ_SIZE;
    bool done = context != NULL && EVP_PKEY_decapsulate_init(context, NULL) > 0
        && EVP_PKEY_decapsulate(context, k_pq, k_pq_len, ciphertext.at, ciphertext.len) > 0;
    EVP_PKEY_CTX_free(context);
    return done;
}

void wipe_stack(void)
{
    uint8_t below[1 << 18]; /* more than an exchange's buffers and libcrypto's calls take */
    OPENSSL_cleanse(below, sizeof below);
}
