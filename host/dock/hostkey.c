/* Host keys and their signatures over H: RFC 8709 (ssh-ed25519), RFC 5656 (ecdsa-sha2-*), RFC 4253 and 8332 (rsa-sha2-*). */
#include "dock.h"
#include <openssl/bn.h>
#include <openssl/core_names.h>
#include <openssl/crypto.h>
#include <openssl/ec.h>
#include <openssl/ecdsa.h>
#include <openssl/objects.h>
#include <openssl/param_build.h>
#include <string.h>

#define ED25519_BYTES 32 /* of a public key */
#define RSA_BITS_LEAST 2048
#define RSA_BYTES_MOST 2048 /* no longer number fits a blob */

const struct scheme schemes[] = {
    {"ssh-ed25519", "ssh-ed25519", KEY_ED25519, NULL, NULL, NULL},
    {"ecdsa-sha2-nistp256", "ecdsa-sha2-nistp256", KEY_ECDSA, "nistp256", "prime256v1", "SHA256"},
    {"ecdsa-sha2-nistp384", "ecdsa-sha2-nistp384", KEY_ECDSA, "nistp384", "secp384r1", "SHA384"},
    {"ecdsa-sha2-nistp521", "ecdsa-sha2-nistp521", KEY_ECDSA, "nistp521", "secp521r1", "SHA512"},
    {"rsa-sha2-512", "ssh-rsa", KEY_RSA, NULL, NULL, "SHA512"},
    {"rsa-sha2-256", "ssh-rsa", KEY_RSA, NULL, NULL, "SHA256"},
};
const size_t scheme_count = sizeof schemes / sizeof schemes[0];

span text_span(const char *text) { return (span){(const uint8_t *)text, strlen(text)}; }

bool span_is(span s, const char *text) { return s.len == strlen(text) && memcmp(s.at, text, s.len) == 0; }

const struct scheme *scheme_named(const uint8_t *name, size_t len)
{
    for (size_t i = 0; i < scheme_count; i++)
        if (span_is((span){name, len}, schemes[i].name)) return &schemes[i];
    return NULL;
}

/* ---- parts of blobs */

span part_of(span whole, castulfrisa_part p) { return (span){whole.at + p.start, (size_t)p.len}; }

bool take_string(span *rest, span *body)
{
    castulfrisa_string parts;
    if (castulfrisa_read_string(rest->at, rest->len, &parts) != CASTULFRISA_OK) return false;
    *body = part_of(*rest, parts.body);
    *rest = part_of(*rest, parts.rest);
    return true;
}

bool take_positive(span *rest, span *body)
{
    castulfrisa_string parts;
    int64_t sign;
    if (castulfrisa_read_mpint(rest->at, rest->len, &sign, &parts) != CASTULFRISA_OK || sign != 1) return false;
    *body = part_of(*rest, parts.body);
    *rest = part_of(*rest, parts.rest);
    return true;
}

bool take_number(span *rest, uint32_t *n)
{
    if (rest->len < 4) return false;
    *n = (uint32_t)rest->at[0] << 24 | (uint32_t)rest->at[1] << 16 | (uint32_t)rest->at[2] << 8 | rest->at[3];
    *rest = (span){rest->at + 4, rest->len - 4};
    return true;
}

bool take_yes(span *rest, bool *yes)
{
    if (rest->len == 0) return false;
    *yes = rest->at[0] != 0;
    *rest = (span){rest->at + 1, rest->len - 1};
    return true;
}

void put_byte(struct blob *b, uint8_t byte)
{
    if (b->len < b->room) b->at[b->len++] = byte;
    else b->short_of_room = true;
}

void put_number(struct blob *b, uint32_t n)
{
    for (int shift = 24; shift >= 0; shift -= 8) put_byte(b, (uint8_t)(n >> shift));
}

void put_string(struct blob *b, const void *bytes, size_t len)
{
    uint64_t count;
    b->short_of_room |= castulfrisa_write_string(b->at + b->len, b->room - b->len, bytes, len, &count) != CASTULFRISA_OK;
    b->len += (size_t)count;
}

void put_text(struct blob *b, const char *text) { put_string(b, text, strlen(text)); }

static void put_positive(struct blob *b, const BIGNUM *n)
{
    uint8_t bytes[1 + RSA_BYTES_MOST] = {0}; /* the leading 0 is the sign; the writer shortens */
    int len = BN_num_bytes(n);
    if (len > RSA_BYTES_MOST) {
        b->short_of_room = true;
        return;
    }
    BN_bn2bin(n, bytes + 1);
    uint64_t count;
    b->short_of_room |= castulfrisa_write_mpint(b->at + b->len, b->room - b->len, bytes, 1 + (size_t)len, &count) != CASTULFRISA_OK;
    b->len += (size_t)count;
}

/* ---- keys from their parts */

EVP_PKEY *ed25519_key(span public_key, span seed)
{
    if (seed.len > 0) return EVP_PKEY_new_raw_private_key_ex(NULL, "ED25519", NULL, seed.at, seed.len);
    return EVP_PKEY_new_raw_public_key_ex(NULL, "ED25519", NULL, public_key.at, public_key.len);
}

/* A secure BIGNUM makes its copies be cleared too. */
static BIGNUM *number(span bytes)
{
    BIGNUM *n = BN_secure_new();
    if (n != NULL && BN_bin2bn(bytes.at, (int)bytes.len, n) == NULL) {
        BN_clear_free(n);
        n = NULL;
    }
    return n;
}

static EVP_PKEY *key_of(const char *type, OSSL_PARAM_BLD *parts, bool private_too)
{
    EVP_PKEY_CTX *context = EVP_PKEY_CTX_new_from_name(NULL, type, NULL);
    OSSL_PARAM *parameters = OSSL_PARAM_BLD_to_param(parts);
    EVP_PKEY *key = NULL;
    if (context == NULL || parameters == NULL || EVP_PKEY_fromdata_init(context) <= 0
        || EVP_PKEY_fromdata(context, &key, private_too ? EVP_PKEY_KEYPAIR : EVP_PKEY_PUBLIC_KEY, parameters) <= 0)
        key = NULL;
    OSSL_PARAM_free(parameters);
    EVP_PKEY_CTX_free(context);
    return key;
}

EVP_PKEY *ecdsa_key(const char *group, span point, span d)
{
    OSSL_PARAM_BLD *parts = OSSL_PARAM_BLD_new();
    BIGNUM *secret = number(d);
    EVP_PKEY *key = NULL;
    if (parts != NULL && secret != NULL && OSSL_PARAM_BLD_push_utf8_string(parts, OSSL_PKEY_PARAM_GROUP_NAME, group, 0)
        && OSSL_PARAM_BLD_push_octet_string(parts, OSSL_PKEY_PARAM_PUB_KEY, point.at, point.len)
        && (d.len == 0 || OSSL_PARAM_BLD_push_BN(parts, OSSL_PKEY_PARAM_PRIV_KEY, secret)))
        key = key_of("EC", parts, d.len > 0);
    BN_clear_free(secret);
    OSSL_PARAM_BLD_free(parts);
    return key;
}

EVP_PKEY *rsa_key(span n, span e, span d)
{
    OSSL_PARAM_BLD *parts = OSSL_PARAM_BLD_new();
    BIGNUM *modulus = number(n), *exponent = number(e), *secret = number(d);
    EVP_PKEY *key = NULL;
    if (parts != NULL && modulus != NULL && exponent != NULL && secret != NULL
        && OSSL_PARAM_BLD_push_BN(parts, OSSL_PKEY_PARAM_RSA_N, modulus)
        && OSSL_PARAM_BLD_push_BN(parts, OSSL_PKEY_PARAM_RSA_E, exponent)
        && (d.len == 0 || OSSL_PARAM_BLD_push_BN(parts, OSSL_PKEY_PARAM_RSA_D, secret)))
        key = key_of("RSA", parts, d.len > 0);
    BN_clear_free(modulus);
    BN_clear_free(exponent);
    BN_clear_free(secret);
    OSSL_PARAM_BLD_free(parts);
    return key;
}

/* The parts of a blob that must be of the scheme's type, with nothing behind them: the public key, or its point, or e and n. */
static bool read_parts(const struct scheme *s, span blob, span *first, span *second)
{
    span type, curve;
    if (!take_string(&blob, &type) || !span_is(type, s->key_type)) return false;
    switch (s->kind) {
    case KEY_ED25519: return take_string(&blob, first) && blob.len == 0 && first->len == ED25519_BYTES;
    case KEY_ECDSA:
        if (!take_string(&blob, &curve) || !span_is(curve, s->curve) || !take_string(&blob, first) || blob.len != 0) return false;
        return first->len > 0 && first->at[0] == 4; /* libcrypto would take other forms of a point too, and infinity */
    case KEY_RSA: return take_positive(&blob, first) && take_positive(&blob, second) && blob.len == 0;
    }
    return false;
}

bool is_host_key(const struct scheme *s, span blob)
{
    span first, second;
    return read_parts(s, blob, &first, &second);
}

static EVP_PKEY *read_host_key(const struct scheme *s, span blob)
{
    const span none = {NULL, 0};
    span first, second;
    if (!read_parts(s, blob, &first, &second)) return NULL;
    switch (s->kind) {
    case KEY_ED25519: return ed25519_key(first, none);
    case KEY_ECDSA: return ecdsa_key(s->group, first, none);
    case KEY_RSA: return rsa_key(second, first, none);
    }
    return NULL;
}

/* ---- signatures */

static bool verified(EVP_PKEY *key, const char *digest, span signature, const uint8_t *h, size_t h_len)
{
    EVP_MD_CTX *context = EVP_MD_CTX_new();
    bool good = context != NULL && EVP_DigestVerifyInit_ex(context, NULL, digest, NULL, NULL, key, NULL) > 0
        && EVP_DigestVerify(context, signature.at, signature.len, h, h_len) == 1;
    EVP_MD_CTX_free(context);
    return good;
}

/* The body is mpint r, mpint s (RFC 5656, 3.1.2); libcrypto wants them in DER. */
static bool ecdsa_verified(EVP_PKEY *key, const char *digest, span body, const uint8_t *h, size_t h_len)
{
    span r_bytes, s_bytes;
    if (!take_positive(&body, &r_bytes) || !take_positive(&body, &s_bytes) || body.len != 0) return false;
    ECDSA_SIG *pair = ECDSA_SIG_new();
    BIGNUM *r = number(r_bytes), *s = number(s_bytes);
    uint8_t *der = NULL;
    bool good = false;
    if (pair != NULL && r != NULL && s != NULL && ECDSA_SIG_set0(pair, r, s)) {
        r = s = NULL; /* the pair's now */
        int len = i2d_ECDSA_SIG(pair, &der);
        good = len > 0 && verified(key, digest, (span){der, (size_t)len}, h, h_len);
    }
    BN_free(r);
    BN_free(s);
    ECDSA_SIG_free(pair);
    OPENSSL_free(der);
    return good;
}

/* The body is a number without leading zeros in some programs (RFC 4253, 6.6); libcrypto wants the modulus's length. */
static bool rsa_verified(EVP_PKEY *key, const char *digest, span body, const uint8_t *h, size_t h_len)
{
    uint8_t full[RSA_BYTES_MOST] = {0};
    size_t size = (size_t)EVP_PKEY_get_size(key);
    if (EVP_PKEY_get_bits(key) < RSA_BITS_LEAST || size > sizeof full || body.len > size) return false;
    memcpy(full + size - body.len, body.at, body.len);
    return verified(key, digest, (span){full, size}, h, h_len);
}

bool signature_holds(const struct scheme *s, span host_key, span signature, const uint8_t *h, size_t h_len)
{
    span name, body;
    if (!take_string(&signature, &name) || !span_is(name, s->name) || !take_string(&signature, &body) || signature.len != 0)
        return false;
    EVP_PKEY *key = read_host_key(s, host_key);
    bool good = false;
    if (key != NULL)
        switch (s->kind) {
        case KEY_ED25519: good = verified(key, s->digest, body, h, h_len); break;
        case KEY_ECDSA: good = ecdsa_verified(key, s->digest, body, h, h_len); break;
        case KEY_RSA: good = rsa_verified(key, s->digest, body, h, h_len); break;
        }
    EVP_PKEY_free(key);
    return good;
}

bool sign_hash(const struct host_key *k, const struct scheme *s, const uint8_t *h, size_t h_len, uint8_t *out, size_t *out_len)
{
    uint8_t raw[CASTULFRISA_BLOB_MOST], pair[CASTULFRISA_BLOB_MOST];
    size_t raw_len = sizeof raw;
    struct blob signature = {out, CASTULFRISA_BLOB_MOST, 0, false}, numbers = {pair, sizeof pair, 0, false};
    EVP_MD_CTX *context = EVP_MD_CTX_new();
    bool made = context != NULL && EVP_DigestSignInit_ex(context, NULL, s->digest, NULL, NULL, k->key, NULL) > 0
        && EVP_DigestSign(context, raw, &raw_len, h, h_len) > 0;
    EVP_MD_CTX_free(context);
    if (!made) return false;

    put_text(&signature, s->name);
    if (s->kind == KEY_ECDSA) {
        const uint8_t *der = raw;
        ECDSA_SIG *both = d2i_ECDSA_SIG(NULL, &der, (long)raw_len);
        if (both == NULL) return false;
        put_positive(&numbers, ECDSA_SIG_get0_r(both));
        put_positive(&numbers, ECDSA_SIG_get0_s(both));
        ECDSA_SIG_free(both);
        put_string(&signature, pair, numbers.len);
    } else
        put_string(&signature, raw, raw_len);
    *out_len = signature.len;
    return !signature.short_of_room && !numbers.short_of_room;
}

/* ---- own host keys */

static bool describe_ed25519(EVP_PKEY *key, struct blob *blob)
{
    uint8_t value[ED25519_BYTES];
    size_t len = sizeof value;
    if (EVP_PKEY_get_raw_public_key(key, value, &len) <= 0) return false;
    put_string(blob, value, len);
    return true;
}

static bool describe_ecdsa(EVP_PKEY *key, const struct scheme *s, struct blob *blob)
{
    uint8_t *point = NULL;
    /* A file may hold the point compressed. */
    EVP_PKEY_set_utf8_string_param(key, OSSL_PKEY_PARAM_EC_POINT_CONVERSION_FORMAT, OSSL_PKEY_EC_POINT_CONVERSION_FORMAT_UNCOMPRESSED);
    size_t len = EVP_PKEY_get1_encoded_public_key(key, &point);
    put_text(blob, s->curve);
    put_string(blob, point, len);
    OPENSSL_free(point);
    return len > 0;
}

static bool describe_rsa(EVP_PKEY *key, struct blob *blob)
{
    BIGNUM *e = NULL, *n = NULL;
    bool good = EVP_PKEY_get_bits(key) >= RSA_BITS_LEAST && EVP_PKEY_get_bn_param(key, OSSL_PKEY_PARAM_RSA_E, &e) > 0
        && EVP_PKEY_get_bn_param(key, OSSL_PKEY_PARAM_RSA_N, &n) > 0;
    if (good) {
        put_positive(blob, e);
        put_positive(blob, n);
    }
    BN_free(e);
    BN_free(n);
    return good;
}

static bool is_of(EVP_PKEY *key, const struct scheme *s)
{
    char group[64] = "";
    switch (s->kind) {
    case KEY_ED25519: return EVP_PKEY_is_a(key, "ED25519");
    case KEY_RSA: return EVP_PKEY_is_a(key, "RSA");
    case KEY_ECDSA:
        return EVP_PKEY_is_a(key, "EC") && EVP_PKEY_get_group_name(key, group, sizeof group, NULL) > 0
            && OBJ_txt2nid(group) == OBJ_txt2nid(s->group);
    }
    return false;
}

bool describe_host_key(struct host_key *k)
{
    const struct scheme *s = NULL;
    for (size_t i = 0; s == NULL && i < scheme_count; i++)
        if (is_of(k->key, &schemes[i])) s = &schemes[i];
    if (s == NULL) return false;

    struct blob blob = {k->blob, sizeof k->blob, 0, false};
    put_text(&blob, s->key_type);
    bool good = s->kind == KEY_ED25519 ? describe_ed25519(k->key, &blob)
        : s->kind == KEY_ECDSA         ? describe_ecdsa(k->key, s, &blob)
                                       : describe_rsa(k->key, &blob);
    k->type = s->key_type;
    k->blob_len = blob.len;
    return good && !blob.short_of_room;
}
