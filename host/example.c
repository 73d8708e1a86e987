/* A client and a server complete a key exchange in one process, with curve25519-sha256 and an ssh-ed25519 host key, on OpenSSL's
   libcrypto, derive their keys, and do it again, as a rekeying does: the calls in their order, what goes in between, every number looked at,
   what is kept and what is wiped. Buffers stand for the network; dock/ is a host over sockets. */
#include "castulfrisa.h"
#include <openssl/crypto.h>
#include <openssl/evp.h>
#include <openssl/rand.h>
#include <stdio.h>
#include <string.h>

#define ED25519 "ssh-ed25519"
#define V_C "SSH-2.0-example_client"
#define V_S "SSH-2.0-example_server"
#define TEXT(s) (const uint8_t *)(s), sizeof(s) - 1
#define EXCHANGE(a) (a)->exchange, sizeof (a)->exchange
#define ROOM(a) (a)->room, sizeof (a)->room
#define VERSIONS (4 + sizeof V_C - 1 + 4 + sizeof V_S - 1) /* the room's beginning, two strings, which the next exchange finds there */

/* The keys of one direction, as long as aes256-ctr and hmac-sha2-256 want them. */
struct keys { uint8_t iv[16], cipher[32], mac[32]; };

/* What one side keeps: one place, no copies, wiped as a whole. Exchange and room serve every exchange of the connection. */
struct side {
    uint8_t exchange[CASTULFRISA_EXCHANGE], room[CASTULFRISA_ROOM];
    EVP_PKEY *own; /* the ephemeral key, of one exchange */
    uint8_t x[32], h[CASTULFRISA_H_SIZE], k[CASTULFRISA_K];
    struct keys c2s, s2c;
};

struct message { uint8_t bytes[CASTULFRISA_REPLY]; uint64_t len; };

static struct message i_c, i_s, init, reply; /* what went over the network */
static EVP_PKEY *host_key;                   /* the server's */
static uint8_t known[64];                    /* its blob, K_S, which the client knows */
static uint64_t known_len;

/* ---- numbers, and the primitives */

static int accepted(const char *call, uint64_t number)
{
    if (number != CASTULFRISA_OK) fprintf(stderr, "%s: %u, %s\n", call, (unsigned)number, castulfrisa_text(number));
    return number == CASTULFRISA_OK;
}

/* A new key pair in the last one's place, and its public value for the wire. */
static int draw(EVP_PKEY **key, const char *type, uint8_t value[32])
{
    size_t len = 32;
    EVP_PKEY_free(*key);
    *key = EVP_PKEY_Q_keygen(NULL, NULL, type);
    return *key != NULL && EVP_PKEY_get_raw_public_key(*key, value, &len) == 1 && len == 32;
}

/* X from the own key and the peer's value, as the primitive gives it, and how many bytes it gave. */
static int x25519(EVP_PKEY *own, const uint8_t *value, uint64_t len, uint8_t x[32], size_t *x_count)
{
    EVP_PKEY *peer = EVP_PKEY_new_raw_public_key_ex(NULL, "X25519", NULL, value, len);
    EVP_PKEY_CTX *context = EVP_PKEY_CTX_new_from_pkey(NULL, own, NULL);
    int given;
    *x_count = 32;
    given = peer != NULL && context != NULL && EVP_PKEY_derive_init(context) == 1 && EVP_PKEY_derive_set_peer(context, peer) == 1
        && EVP_PKEY_derive(context, x, x_count) == 1;
    EVP_PKEY_CTX_free(context);
    EVP_PKEY_free(peer);
    return given;
}

/* Over H, of whose 64 bytes this method's digest has the first 32. */
static int sign(const uint8_t *h, uint8_t signature[64])
{
    EVP_MD_CTX *context = EVP_MD_CTX_new();
    size_t len = 64;
    int made = context != NULL && EVP_DigestSignInit_ex(context, NULL, NULL, NULL, NULL, host_key, NULL) == 1
        && EVP_DigestSign(context, signature, &len, h, CASTULFRISA_SHA256) == 1 && len == 64;
    EVP_MD_CTX_free(context);
    return made;
}

static int verify(const uint8_t key[32], const uint8_t signature[64], const uint8_t *h)
{
    EVP_PKEY *public_key = EVP_PKEY_new_raw_public_key_ex(NULL, "ED25519", NULL, key, 32);
    EVP_MD_CTX *context = EVP_MD_CTX_new();
    int holds = public_key != NULL && context != NULL
        && EVP_DigestVerifyInit_ex(context, NULL, NULL, NULL, NULL, public_key, NULL) == 1
        && EVP_DigestVerify(context, signature, 64, h, CASTULFRISA_SHA256) == 1;
    EVP_MD_CTX_free(context);
    EVP_PKEY_free(public_key);
    return holds;
}

/* ---- blobs of Ed25519: the name and one value, each as a string */

static int write_blob(uint8_t *out, uint64_t out_len, const uint8_t *value, uint64_t value_len, uint64_t *len)
{
    uint64_t name, rest;
    if (!accepted("write_string", castulfrisa_write_string(out, out_len, TEXT(ED25519), &name))
        || !accepted("write_string", castulfrisa_write_string(out + name, out_len - name, value, value_len, &rest))) return 0;
    *len = name + rest;
    return 1;
}

/* The value in a blob; NULL for any other blob. */
static const uint8_t *read_blob(const uint8_t *blob, uint64_t len, uint64_t value_len)
{
    castulfrisa_string name, value;
    if (castulfrisa_read_string(blob, len, &name) != 0 || name.body.len != sizeof ED25519 - 1
        || memcmp(blob + name.body.start, ED25519, sizeof ED25519 - 1) != 0
        || castulfrisa_read_string(blob + name.rest.start, name.rest.len, &value) != 0 || value.body.len != value_len
        || value.rest.len != 0)
        return NULL;
    return blob + name.rest.start + value.body.start;
}

/* ---- both sides, up to the start */

static int write_kexinit(struct message *m)
{
    static const castulfrisa_bytes lists[CASTULFRISA_LISTS] = {
        {TEXT("curve25519-sha256")}, {TEXT(ED25519)}, {TEXT("aes256-ctr")}, {TEXT("aes256-ctr")}, {TEXT("hmac-sha2-256")},
        {TEXT("hmac-sha2-256")}, {TEXT("none")}, {TEXT("none")}, {TEXT("")}, {TEXT("")}};
    uint8_t cookie[CASTULFRISA_COOKIE], joined[256];
    uint64_t ends[CASTULFRISA_LISTS], len = castulfrisa_join(lists, joined, sizeof joined, ends), number;
    castulfrisa_proposed told;
    if (len > sizeof joined || RAND_bytes(cookie, sizeof cookie) != 1) return 0;
    number = castulfrisa_write_kexinit(m->bytes, sizeof m->bytes, cookie, sizeof cookie, joined, len, ends, 0, 0, &told);
    if (told.bad_list != 0) fprintf(stderr, "list %u is bad\n", (unsigned)told.bad_list);
    m->len = told.count;
    return accepted("write_kexinit", number);
}

/* The choice, and the exchange begun: the connection's first, or another one. */
static int start(struct side *a, uint64_t role, int first)
{
    castulfrisa_choice choice;
    if (!accepted("choose", castulfrisa_choose(i_c.bytes, i_c.len, i_s.bytes, i_s.len, &choice))) return 0;
    if (first)
        return accepted("start", castulfrisa_start(EXCHANGE(a), role, choice.method, TEXT(V_C), TEXT(V_S), i_c.bytes, i_c.len, i_s.bytes,
                                                   i_s.len, ROOM(a)));
    return accepted("again", castulfrisa_again(EXCHANGE(a), ROOM(a), choice.method, i_c.bytes, i_c.len, i_s.bytes, i_s.len));
}

/* ---- the dance: INIT, REPLY, the verdict, and the keys. From the secret step on each call leaves K on the stack, accepted or not: what makes
   one of them wipes it. */

static int client_begins(struct side *a, int first)
{
    uint8_t c[32];
    return start(a, CASTULFRISA_CLIENT, first) && draw(&a->own, "X25519", c)
        && accepted("own_c", castulfrisa_own_c(EXCHANGE(a), ROOM(a), c, sizeof c, init.bytes, sizeof init.bytes, &init.len));
}

/* What the primitive gave goes to the core, also that it failed; H comes out of it. K_S and S are a server's. */
static int take_secret(struct side *a, const uint8_t *value, uint64_t value_len, const uint8_t *ks, uint64_t ks_len, const uint8_t *s,
                       uint64_t s_len)
{
    size_t x_count;
    uint64_t count, given = x25519(a->own, value, value_len, a->x, &x_count) ? 1 : 0;
    uint64_t number = castulfrisa_take_secret(EXCHANGE(a), ROOM(a), given, x_count, a->x, sizeof a->x, CASTULFRISA_KEM_ABSENT, NULL, 0, ks,
                                              ks_len, s, s_len, &count, a->h);
    castulfrisa_wipe_stack();
    return accepted("take_secret", number);
}

static int server_answers(struct side *a, int first)
{
    uint8_t s[32], signature[64], blob[128];
    uint64_t blob_len;
    castulfrisa_init told;
    castulfrisa_signed counts;
    uint64_t number;
    if (!start(a, CASTULFRISA_SERVER, first) || !draw(&a->own, "X25519", s)
        || !accepted("read_init", castulfrisa_read_init(EXCHANGE(a), ROOM(a), init.bytes, init.len, &told))
        || !take_secret(a, init.bytes + told.c.start, told.c.len, known, known_len, s, sizeof s)
        || !sign(a->h, signature) || !write_blob(blob, sizeof blob, signature, sizeof signature, &blob_len)) return 0;
    number = castulfrisa_sign(EXCHANGE(a), ROOM(a), blob, blob_len, reply.bytes, sizeof reply.bytes, a->k, sizeof a->k, &counts);
    castulfrisa_wipe_stack();
    reply.len = counts.reply;
    return accepted("sign", number);
}

/* Two answers, each 1 or 0: whether the signature holds over H under K_S, and whether K_S is the host key that is known, the same in every exchange. */
static int verdict(struct side *a, const castulfrisa_reply *parts)
{
    const uint8_t *ks = reply.bytes + parts->host_key.start;
    const uint8_t *key = read_blob(ks, parts->host_key.len, 32);
    const uint8_t *signature = read_blob(reply.bytes + parts->signature.start, parts->signature.len, 64);
    uint64_t holds = key != NULL && signature != NULL && verify(key, signature, a->h) ? 1 : 0;
    uint64_t is_known = parts->host_key.len == known_len && memcmp(ks, known, known_len) == 0 ? 1 : 0;
    uint64_t k_len, number = castulfrisa_verdict(EXCHANGE(a), ROOM(a), holds, is_known, a->k, sizeof a->k, &k_len);
    castulfrisa_wipe_stack();
    return accepted("verdict", number);
}

static int client_ends(struct side *a)
{
    castulfrisa_reply parts;
    return accepted("read_reply", castulfrisa_read_reply(EXCHANGE(a), ROOM(a), reply.bytes, reply.len, &parts))
        && take_secret(a, reply.bytes + parts.s.start, parts.s.len, NULL, 0, NULL, 0) && verdict(a, &parts);
}

/* The six keys, of the complete exchange alone: what else holds K, or what K is made of, is wiped first. The exchange stays, and of the room the
   versions: the next exchange begins with them. */
static int derive(struct side *a)
{
    const struct { uint64_t letter; uint8_t *key; uint64_t len; } six[] = {
        {CASTULFRISA_IV_C2S, a->c2s.iv, sizeof a->c2s.iv}, {CASTULFRISA_IV_S2C, a->s2c.iv, sizeof a->s2c.iv},
        {CASTULFRISA_CIPHER_KEY_C2S, a->c2s.cipher, sizeof a->c2s.cipher}, {CASTULFRISA_CIPHER_KEY_S2C, a->s2c.cipher, sizeof a->s2c.cipher},
        {CASTULFRISA_MAC_KEY_C2S, a->c2s.mac, sizeof a->c2s.mac}, {CASTULFRISA_MAC_KEY_S2C, a->s2c.mac, sizeof a->s2c.mac}};
    uint64_t number = CASTULFRISA_OK;
    size_t i;
    castulfrisa_wipe(a->room + VERSIONS, sizeof a->room - VERSIONS);
    castulfrisa_wipe(a->x, sizeof a->x);
    castulfrisa_wipe(a->k, sizeof a->k);
    for (i = 0; i < 6 && number == CASTULFRISA_OK; i++)
        number = castulfrisa_derive(EXCHANGE(a), six[i].letter, six[i].len, six[i].key, six[i].len);
    castulfrisa_wipe_stack();
    return accepted("derive", number);
}

/* The same session on both sides: its identifier is the first H, whose digest has 32 bytes, and so many exchanges are complete. */
static int same_session(struct side *a, struct side *b, const uint8_t *h, uint64_t completed)
{
    castulfrisa_session of_a, of_b;
    uint8_t id_a[CASTULFRISA_H_SIZE], id_b[CASTULFRISA_H_SIZE];
    return accepted("session_id", castulfrisa_session_id(EXCHANGE(a), &of_a, id_a))
        && accepted("session_id", castulfrisa_session_id(EXCHANGE(b), &of_b, id_b)) && of_a.completed == completed
        && of_b.completed == completed && of_a.id_len == CASTULFRISA_SHA256 && of_b.id_len == CASTULFRISA_SHA256
        && memcmp(id_a, h, of_a.id_len) == 0 && memcmp(id_b, h, of_b.id_len) == 0;
}

/* One exchange, from the two KEXINITs to keys that both sides have. */
static int exchange(struct side *client, struct side *server, int first)
{
    return write_kexinit(&i_c) && write_kexinit(&i_s) && client_begins(client, first) && server_answers(server, first) && client_ends(client)
        && derive(client) && derive(server)
        /* here a host hands its keys to its cipher and its MAC; this one compares */
        && CRYPTO_memcmp(&client->c2s, &server->c2s, sizeof client->c2s) == 0
        && CRYPTO_memcmp(&client->s2c, &server->s2c, sizeof client->s2c) == 0
        && CRYPTO_memcmp(&client->c2s, &client->s2c, sizeof client->c2s) != 0 && CRYPTO_memcmp(client->h, server->h, sizeof client->h) == 0;
}

/* Whatever of it is still there, H and the keys too; libcrypto clears a private key that it frees. */
static void wipe(struct side *a)
{
    EVP_PKEY_free(a->own);
    castulfrisa_wipe((uint8_t *)a, sizeof *a);
}

int main(void)
{
    static struct side client, server;
    static struct keys old;
    uint8_t value[32], h[CASTULFRISA_H_SIZE];
    int good = castulfrisa_version() == CASTULFRISA_VERSION; /* or header and archive are of different days */

    good = good && draw(&host_key, "ED25519", value) && write_blob(known, sizeof known, value, sizeof value, &known_len);
    good = good && exchange(&client, &server, 1);
    memcpy(h, client.h, sizeof h);
    old = client.c2s; /* they serve until NEWKEYS of the next exchange */
    good = good && same_session(&client, &server, h, 1);

    /* an hour later, or a gigabyte: the versions stand in the room, and the session's identifier in the exchange */
    good = good && exchange(&client, &server, 0) && same_session(&client, &server, h, 2);
    good = good && CRYPTO_memcmp(&old, &client.c2s, sizeof old) != 0 && CRYPTO_memcmp(client.h, h, sizeof h) != 0;
    castulfrisa_wipe((uint8_t *)&old, sizeof old);
    wipe(&client);
    wipe(&server);
    EVP_PKEY_free(host_key);
    puts(good ? "ok" : "failed");
    return good ? 0 : 1;
}
