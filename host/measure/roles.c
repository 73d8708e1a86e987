/* One exchange with every field at its largest, a key and the next beginning, as client (ROLE 1), as server (2) or as both (3), or no more than a
   hash (4), on a stack that was painted before: prints how deep each entry went. Its link map tells what of the library a host of that role carries. */
#define _XOPEN_SOURCE 700
#include "castulfrisa.h"
#include <pthread.h>
#include <stdio.h>
#include <string.h>

#define METHOD CASTULFRISA_MLKEM1024_NISTP384_SHA384
#define STACK (256 * 1024)
#define PAINT 0xd5

static uint8_t stack[STACK] __attribute__((aligned(4096)));
static uint64_t number; /* the last call's */

#if ROLE & 3
static uint8_t room[CASTULFRISA_ROOM], kexinit[CASTULFRISA_KEXINIT_MOST], version[CASTULFRISA_V_MOST], list[3999];
static uint8_t init[CASTULFRISA_INIT], reply[CASTULFRISA_REPLY], k[CASTULFRISA_K];
static uint8_t value[CASTULFRISA_VALUE_MOST], x[48], k_pq[CASTULFRISA_K_PQ_SIZE], h[CASTULFRISA_H_SIZE];
static uint8_t ks[CASTULFRISA_BLOB_MOST], signature[CASTULFRISA_BLOB_MOST];
static uint8_t exchange[CASTULFRISA_EXCHANGE], key[CASTULFRISA_KEY_MOST];
static uint64_t init_len, reply_len;

#define EXCHANGE exchange, sizeof exchange, room, sizeof room

static const uint8_t *b(const char *s) { return (const uint8_t *)s; }
#endif

/* ---- the calls, each on a stack of its own; the first is none, and shows what the thread itself takes */

static void nothing(void) {}

#if ROLE & 3
static void write_kexinit(void)
{
    const castulfrisa_bytes lists[CASTULFRISA_LISTS] = {
        {b("mlkem1024nistp384-sha384"), 24}, {b("ssh-ed25519"), 11}, {list, sizeof list}, {NULL, 0}, {NULL, 0},
        {NULL, 0}, {NULL, 0}, {NULL, 0}, {NULL, 0}, {NULL, 0}};
    static uint8_t joined[CASTULFRISA_KEXINIT_MOST];
    uint64_t ends[CASTULFRISA_LISTS], len = castulfrisa_join(lists, joined, sizeof joined, ends);
    castulfrisa_proposed told;
    number = castulfrisa_write_kexinit(kexinit, sizeof kexinit, b("0123456789abcdef"), 16, joined, len, ends, 0, 0, &told);
}

static void choose(void)
{
    castulfrisa_choice choice;
    number = castulfrisa_choose(kexinit, sizeof kexinit, kexinit, sizeof kexinit, &choice);
}

static void start(uint64_t role)
{
    number = castulfrisa_start(exchange, sizeof exchange, role, METHOD, version, sizeof version, version, sizeof version, kexinit,
                               sizeof kexinit, kexinit, sizeof kexinit, room, sizeof room);
}

static void take_secret(void)
{
    uint64_t count;
    number = castulfrisa_take_secret(EXCHANGE, 1, sizeof x, x, sizeof x, CASTULFRISA_KEM_DONE, k_pq, sizeof k_pq, ks, sizeof ks, value,
                                     sizeof value, &count, h);
}

static void derive(void)
{
    number = castulfrisa_derive(exchange, sizeof exchange, CASTULFRISA_CIPHER_KEY_C2S, sizeof key, key, sizeof key);
}

static void session_id(void)
{
    castulfrisa_session told;
    number = castulfrisa_session_id(exchange, sizeof exchange, &told, h);
}

static void again(void)
{
    number = castulfrisa_again(EXCHANGE, METHOD, kexinit, sizeof kexinit, kexinit, sizeof kexinit);
}

static void wipe(void)
{
    castulfrisa_wipe(exchange, sizeof exchange);
    castulfrisa_wipe(room, sizeof room);
}
#endif
#if ROLE & 1
static void start_client(void) { start(CASTULFRISA_CLIENT); }

static void own_c(void)
{
    uint64_t count;
    number = castulfrisa_own_c(EXCHANGE, value, sizeof value, init, sizeof init, &count);
}

static void read_reply(void)
{
    castulfrisa_reply parts;
    number = castulfrisa_read_reply(EXCHANGE, reply, reply_len, &parts);
}

static void verdict(void)
{
    uint64_t count;
    number = castulfrisa_verdict(EXCHANGE, 1, 1, k, sizeof k, &count);
}
#endif
#if ROLE & 2
static void start_server(void) { start(CASTULFRISA_SERVER); }

static void read_init(void)
{
    castulfrisa_init told;
    number = castulfrisa_read_init(EXCHANGE, init, init_len, &told);
}

static void sign(void)
{
    castulfrisa_signed counts;
    number = castulfrisa_sign(EXCHANGE, signature, sizeof signature, reply, sizeof reply, k, sizeof k, &counts);
}
#endif

#if ROLE & 4
static uint8_t hash[CASTULFRISA_HASH_SIZE], digest[CASTULFRISA_H_SIZE];
static uint8_t message[CASTULFRISA_HASH_MOST - 1]; /* 127 bytes of it wait at the end, so that the padding takes two blocks */

static void hash_start(void) { number = castulfrisa_hash_start(hash, sizeof hash, CASTULFRISA_SHA512); }
static void hash_feed(void) { number = castulfrisa_hash_feed(hash, sizeof hash, message, sizeof message); }
static void hash_finish(void) { number = castulfrisa_hash_finish(hash, sizeof hash, digest); }
#endif

static void *run(void *call)
{
    (*(void (**)(void))call)();
    return NULL;
}

/* The bytes of the painted stack that a call touched. */
static size_t depth(void (*call)(void))
{
    pthread_attr_t attr;
    pthread_t thread;
    size_t i = 0;
    memset(stack, PAINT, sizeof stack);
    pthread_attr_init(&attr);
    pthread_attr_setstack(&attr, stack, sizeof stack);
    pthread_create(&thread, &attr, run, &call);
    pthread_join(thread, NULL);
    while (i < sizeof stack && stack[i] == PAINT) i++;
    return sizeof stack - i;
}

static size_t deepest;
static int refused;

static void tell(const char *name, void (*call)(void), size_t base)
{
    size_t d = depth(call) - base;
    printf("stack %s %zu %u\n", name, d, (unsigned)number);
    if (number != 0) refused = 1;
    if (d > deepest) deepest = d;
}

#if ROLE & 3
static size_t string(uint8_t *at, const uint8_t *body, size_t len)
{
    at[0] = 0;
    at[1] = 0;
    at[2] = (uint8_t)(len >> 8);
    at[3] = (uint8_t)len;
    memcpy(at + 4, body, len);
    return 4 + len;
}

/* What the calls are handed. */
static void fill(void)
{
    size_t i;
    memset(version, 'v', sizeof version);
    memset(value, 4, sizeof value);
    memset(x, 0x80, sizeof x);
    for (i = 0; i < sizeof list; i++) list[i] = i % 8 == 7 ? ',' : 'a';
    list[sizeof list - 1] = 'z';
    init[0] = 30;
    init_len = 1 + string(init + 1, value, sizeof value);
    reply[0] = 31;
    reply_len = 1 + string(reply + 1, ks, sizeof ks);
    reply_len += string(reply + reply_len, value, sizeof value);
    reply_len += string(reply + reply_len, signature, sizeof signature);
}
#endif

int main(void)
{
    size_t base;
    depth(nothing);
    base = depth(nothing);
#if ROLE & 3
    fill();
    tell("write_kexinit", write_kexinit, base);
    tell("choose", choose, base);
#endif
#if ROLE & 1
    tell("start", start_client, base);
    tell("own_c", own_c, base);
    tell("read_reply", read_reply, base);
    tell("take_secret", take_secret, base);
    tell("verdict", verdict, base);
    tell("derive", derive, base);
    tell("session_id", session_id, base);
    tell("again", again, base);
#endif
#if ROLE & 2
    tell("start", start_server, base);
    tell("read_init", read_init, base);
    tell("take_secret", take_secret, base);
    tell("sign", sign, base);
    tell("derive", derive, base);
    tell("session_id", session_id, base);
    tell("again", again, base);
#endif
#if ROLE & 3
    tell("wipe", wipe, base);
#endif
#if ROLE & 4
    tell("hash_start", hash_start, base);
    tell("hash_feed", hash_feed, base);
    tell("hash_finish", hash_finish, base);
#endif
    printf("deepest %zu\n", deepest);
    printf("sizes %d %d %d %d %d %d\n", CASTULFRISA_ROOM, CASTULFRISA_EXCHANGE, CASTULFRISA_K, CASTULFRISA_H_SIZE, CASTULFRISA_INIT,
           CASTULFRISA_REPLY);
    return refused || deepest >= CASTULFRISA_STACK;
}
