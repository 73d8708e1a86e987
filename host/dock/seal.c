/* Packets behind NEWKEYS: AES in counter mode (RFC 4344, 4) and HMAC with SHA-2 (RFC 6668), over the plaintext (RFC 4253, 6.4) or, where the
   name says -etm, over the ciphertext (OpenSSH's PROTOCOL, 1.5). */
#include "dock.h"
#include <openssl/core_names.h>
#include <openssl/crypto.h>

#define LENGTH 4 /* bytes of a packet's own length */

static const struct cipher ciphers[] = {
    {"aes256-ctr", "AES-256-CTR", 32},
    {"aes128-ctr", "AES-128-CTR", 16},
};

static const struct mac macs[] = {
    {"hmac-sha2-256-etm@openssh.com", "SHA2-256", 32, true},
    {"hmac-sha2-512-etm@openssh.com", "SHA2-512", 64, true},
    {"hmac-sha2-256", "SHA2-256", 32, false},
    {"hmac-sha2-512", "SHA2-512", 64, false},
};

const struct cipher *cipher_named(span name)
{
    for (size_t i = 0; i < sizeof ciphers / sizeof ciphers[0]; i++)
        if (span_is(name, ciphers[i].name)) return &ciphers[i];
    return NULL;
}

const struct mac *mac_named(span name)
{
    for (size_t i = 0; i < sizeof macs / sizeof macs[0]; i++)
        if (span_is(name, macs[i].name)) return &macs[i];
    return NULL;
}

/* ---- keys */

static EVP_CIPHER_CTX *keyed_cipher(const struct cipher *c, const struct seal_keys *keys)
{
    EVP_CIPHER *algorithm = EVP_CIPHER_fetch(NULL, c->algorithm, NULL);
    EVP_CIPHER_CTX *context = EVP_CIPHER_CTX_new();
    /* A counter's stream is the same both ways. */
    bool keyed = algorithm != NULL && context != NULL && (size_t)EVP_CIPHER_get_key_length(algorithm) == c->key_len
        && EVP_CIPHER_get_iv_length(algorithm) == SEAL_BLOCK && EVP_EncryptInit_ex2(context, algorithm, keys->cipher, keys->iv, NULL) > 0;
    EVP_CIPHER_free(algorithm);
    if (keyed) return context;
    EVP_CIPHER_CTX_free(context);
    return NULL;
}

static EVP_MAC_CTX *keyed_mac(const struct mac *m, const struct seal_keys *keys)
{
    char digest[16];
    snprintf(digest, sizeof digest, "%s", m->digest);
    const OSSL_PARAM named[] = {OSSL_PARAM_construct_utf8_string(OSSL_MAC_PARAM_DIGEST, digest, 0), OSSL_PARAM_construct_end()};
    EVP_MAC *hmac = EVP_MAC_fetch(NULL, "HMAC", NULL);
    EVP_MAC_CTX *context = hmac == NULL ? NULL : EVP_MAC_CTX_new(hmac);
    bool keyed = context != NULL && EVP_MAC_init(context, keys->mac, m->tag_len, named) > 0 && EVP_MAC_CTX_get_mac_size(context) == m->tag_len;
    EVP_MAC_free(hmac);
    if (keyed) return context;
    EVP_MAC_CTX_free(context);
    return NULL;
}

bool seal_take_keys(struct seal *s, const struct seal_keys *keys)
{
    s->next.crypt = keyed_cipher(s->next.cipher, keys);
    s->next.tag = keyed_mac(s->next.mac, keys);
    return s->next.crypt != NULL && s->next.tag != NULL;
}

static void suite_end(struct suite *s)
{
    EVP_CIPHER_CTX_free(s->crypt);
    EVP_MAC_CTX_free(s->tag);
    *s = (struct suite){0};
}

void seal_begin(struct seal *s, bool strict)
{
    suite_end(&s->now);
    s->now = s->next;
    s->next = (struct suite){0};
    s->on = true;
    s->packets = 0;
    if (strict) s->sequence = 0;
}

void seal_end(struct seal *s)
{
    suite_end(&s->now);
    suite_end(&s->next);
    *s = (struct seal){0};
}

/* ---- the form of a packet */

static bool hides_length(const struct seal *s) { return s->on && !s->now.mac->over_ciphertext; }

size_t seal_aligned(const struct seal *s, size_t length) { return s->on && s->now.mac->over_ciphertext ? length : LENGTH + length; }

size_t seal_block(const struct seal *s) { return s->on ? SEAL_BLOCK : 8; }

size_t seal_tag_len(const struct seal *s) { return s->on ? s->now.mac->tag_len : 0; }

/* ---- packets */

static bool apply_stream(struct seal *s, uint8_t *bytes, size_t len)
{
    int done = 0;
    return len == 0 || (EVP_EncryptUpdate(s->now.crypt, bytes, &done, bytes, (int)len) > 0 && (size_t)done == len);
}

/* The MAC over the packet's number and its bytes as they stand. */
static bool make_tag(struct seal *s, const uint8_t *packet, size_t len, uint8_t *tag)
{
    const uint8_t number[] = {(uint8_t)(s->sequence >> 24), (uint8_t)(s->sequence >> 16), (uint8_t)(s->sequence >> 8), (uint8_t)s->sequence};
    size_t tag_len;
    return EVP_MAC_init(s->now.tag, NULL, 0, NULL) > 0 /* under the same key */
        && EVP_MAC_update(s->now.tag, number, sizeof number) > 0 && EVP_MAC_update(s->now.tag, packet, len) > 0
        && EVP_MAC_final(s->now.tag, tag, &tag_len, s->now.mac->tag_len) > 0 && tag_len == s->now.mac->tag_len;
}

/* In a time that does not tell how much of the tag is right. */
static bool tag_holds(struct seal *s, const uint8_t *packet, size_t len)
{
    uint8_t right[SEAL_TAG_MOST];
    return make_tag(s, packet, len, right) && CRYPTO_memcmp(right, packet + len, s->now.mac->tag_len) == 0;
}

static bool close_sealed(struct seal *s, uint8_t *packet, size_t len)
{
    if (s->now.mac->over_ciphertext) return apply_stream(s, packet + LENGTH, len - LENGTH) && make_tag(s, packet, len, packet + len);
    return make_tag(s, packet, len, packet + len) && apply_stream(s, packet, len);
}

bool seal_close_packet(struct seal *s, uint8_t *packet, size_t len)
{
    bool closed = !s->on || close_sealed(s, packet, len);
    s->sequence++;
    s->packets++;
    return closed;
}

size_t seal_ahead(const struct seal *s) { return hides_length(s) ? SEAL_BLOCK : LENGTH; }

bool seal_show_length(struct seal *s, uint8_t *packet) { return !hides_length(s) || apply_stream(s, packet, SEAL_BLOCK); }

/* The MAC comes first where it can: what it does not hold for is not decrypted. */
static bool open_sealed(struct seal *s, uint8_t *packet, size_t len)
{
    if (s->now.mac->over_ciphertext) return tag_holds(s, packet, len) && apply_stream(s, packet + LENGTH, len - LENGTH);
    return apply_stream(s, packet + SEAL_BLOCK, len - SEAL_BLOCK) && tag_holds(s, packet, len);
}

bool seal_open_packet(struct seal *s, uint8_t *packet, size_t len)
{
    bool holds = !s->on || open_sealed(s, packet, len);
    s->sequence++;
    s->packets++;
    return holds;
}
