/* Keys derived wrongly, for the live test alone: linked with dock under the linker's --wrap for the four calls below, so that dock's own source
   knows nothing of it. DOCK_KEYS in the environment says how:
     A to F      that one key with the letter of the other direction, from the library
     no-length   all six here, from K without its four length bytes
     lead-zero   all six here, from K with a zero byte too many at its front
     new-id      all six here, with each exchange's own H for the session identifier
     id-length   all six here, with as many bytes of the identifier as the running method's digest has, zeros where it has fewer
     right       all six here, from K and the first H as they are: what the others differ from in that alone */
#include "castulfrisa.h"
#include <stdlib.h>
#include <string.h>

uint64_t __real_castulfrisa_derive(
    const uint8_t *exchange, uint64_t exchange_len, uint64_t letter, uint64_t length, uint8_t *key, uint64_t key_len);
uint64_t __real_castulfrisa_take_secret(
    uint8_t *exchange, uint64_t exchange_len, uint8_t *room, uint64_t room_len, uint64_t given, uint64_t x_count, const uint8_t *x, uint64_t x_len,
    uint64_t kem, const uint8_t *k_pq, uint64_t k_pq_len, const uint8_t *ks, uint64_t ks_len, const uint8_t *s, uint64_t s_len, uint64_t *count,
    uint8_t h[CASTULFRISA_H_SIZE]);
uint64_t __real_castulfrisa_verdict(
    uint8_t *exchange, uint64_t exchange_len, uint8_t *room, uint64_t room_len, uint64_t signature, uint64_t host_key, uint8_t *k_out,
    uint64_t k_out_len, uint64_t *count);
uint64_t __real_castulfrisa_sign(
    uint8_t *exchange, uint64_t exchange_len, const uint8_t *room, uint64_t room_len, const uint8_t *signature, uint64_t signature_len,
    uint8_t *out, uint64_t out_len, uint8_t *k_out, uint64_t k_out_len, castulfrisa_signed *counts);

/* ---- what goes into the keys, seen as it goes by */

static uint8_t seen_h[CASTULFRISA_H_SIZE], first_h[CASTULFRISA_H_SIZE], seen_k[CASTULFRISA_K];
static uint64_t seen_k_len, first_h_len;

static void see_k(const uint8_t *k, uint64_t len)
{
    memcpy(seen_k, k, sizeof seen_k);
    seen_k_len = len;
}

uint64_t __wrap_castulfrisa_take_secret(
    uint8_t *exchange, uint64_t exchange_len, uint8_t *room, uint64_t room_len, uint64_t given, uint64_t x_count, const uint8_t *x, uint64_t x_len,
    uint64_t kem, const uint8_t *k_pq, uint64_t k_pq_len, const uint8_t *ks, uint64_t ks_len, const uint8_t *s, uint64_t s_len, uint64_t *count,
    uint8_t h[CASTULFRISA_H_SIZE])
{
    uint64_t number = __real_castulfrisa_take_secret(exchange, exchange_len, room, room_len, given, x_count, x, x_len, kem, k_pq, k_pq_len, ks,
                                                     ks_len, s, s_len, count, h);
    memcpy(seen_h, h, sizeof seen_h);
    return number;
}

uint64_t __wrap_castulfrisa_verdict(
    uint8_t *exchange, uint64_t exchange_len, uint8_t *room, uint64_t room_len, uint64_t signature, uint64_t host_key, uint8_t *k_out,
    uint64_t k_out_len, uint64_t *count)
{
    uint64_t number = __real_castulfrisa_verdict(exchange, exchange_len, room, room_len, signature, host_key, k_out, k_out_len, count);
    if (number == CASTULFRISA_OK) see_k(k_out, *count);
    return number;
}

uint64_t __wrap_castulfrisa_sign(
    uint8_t *exchange, uint64_t exchange_len, const uint8_t *room, uint64_t room_len, const uint8_t *signature, uint64_t signature_len,
    uint8_t *out, uint64_t out_len, uint8_t *k_out, uint64_t k_out_len, castulfrisa_signed *counts)
{
    uint64_t number = __real_castulfrisa_sign(exchange, exchange_len, room, room_len, signature, signature_len, out, out_len, k_out, k_out_len,
                                              counts);
    if (number == CASTULFRISA_OK) see_k(k_out, counts->k);
    return number;
}

/* ---- RFC 4253, 7.2, from a K that may be wrong */

typedef struct { const uint8_t *at; uint64_t len; } part;

static uint64_t hashed(uint64_t kind, const part *parts, size_t count, uint8_t digest[CASTULFRISA_H_SIZE])
{
    uint8_t hash[CASTULFRISA_HASH_SIZE];
    uint64_t number = castulfrisa_hash_start(hash, sizeof hash, kind);
    for (size_t i = 0; number == CASTULFRISA_OK && i < count; i++)
        number = castulfrisa_hash_feed(hash, sizeof hash, parts[i].at, parts[i].len);
    return number == CASTULFRISA_OK ? castulfrisa_hash_finish(hash, sizeof hash, digest) : number;
}

static uint64_t derive_from(part k, part id, uint64_t kind, uint64_t letter, uint64_t length, uint8_t *key)
{
    const uint8_t name = (uint8_t)letter;
    uint8_t made[256], digest[CASTULFRISA_H_SIZE];
    uint64_t count = 0, number = CASTULFRISA_OK;
    const part h = {seen_h, kind};
    while (number == CASTULFRISA_OK && count < length) {
        const part first[] = {k, h, {&name, 1}, id}, more[] = {k, h, {made, count}};
        number = count == 0 ? hashed(kind, first, 4, digest) : hashed(kind, more, 3, digest);
        memcpy(made + count, digest, (size_t)kind);
        count += kind;
    }
    memcpy(key, made, (size_t)length);
    return number;
}

uint64_t __wrap_castulfrisa_derive(
    const uint8_t *exchange, uint64_t exchange_len, uint64_t letter, uint64_t length, uint8_t *key, uint64_t key_len)
{
    const char *how = getenv("DOCK_KEYS");
    uint8_t longer[CASTULFRISA_K + 1] = {0, 0, 0, (uint8_t)(seen_k_len - 4 + 1), 0};
    uint8_t id[CASTULFRISA_H_SIZE];
    castulfrisa_progress told;
    castulfrisa_session session;
    castulfrisa_sizes sizes;
    if (how == NULL || castulfrisa_state(exchange, exchange_len, &told) != CASTULFRISA_OK
        || castulfrisa_session_id(exchange, exchange_len, &session, id) != CASTULFRISA_OK
        || castulfrisa_method_sizes(told.method, &sizes) != CASTULFRISA_OK || seen_k_len < 5) return CASTULFRISA_NOT_DUE;
    if (length > 128 || key_len < length) return CASTULFRISA_BAD_INPUT;
    if (session.completed == 1) {
        memcpy(first_h, seen_h, sizeof first_h);
        first_h_len = sizes.digest_len;
    }
    const part k = {seen_k, seen_k_len}, first = {first_h, first_h_len};

    if (how[0] >= 'A' && how[0] <= 'F') {
        if (letter == (uint64_t)how[0]) letter = ((letter - 'A') ^ 1) + 'A';
        return __real_castulfrisa_derive(exchange, exchange_len, letter, length, key, key_len);
    }
    if (strcmp(how, "right") == 0) return derive_from(k, first, sizes.digest_len, letter, length, key);
    if (strcmp(how, "new-id") == 0) return derive_from(k, (part){seen_h, sizes.digest_len}, sizes.digest_len, letter, length, key);
    if (strcmp(how, "id-length") == 0) return derive_from(k, (part){first_h, sizes.digest_len}, sizes.digest_len, letter, length, key);
    if (strcmp(how, "no-length") == 0) return derive_from((part){k.at + 4, k.len - 4}, first, sizes.digest_len, letter, length, key);
    if (strcmp(how, "lead-zero") != 0) return CASTULFRISA_NOT_DUE;
    memcpy(longer + 5, seen_k + 4, (size_t)seen_k_len - 4);
    return derive_from((part){longer, seen_k_len + 1}, first, sizes.digest_len, letter, length, key);
}
