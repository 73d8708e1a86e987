/* What the calls leave of the shared secrets and of a key on the stack below their caller, how deep each goes, and that
   castulfrisa_wipe_stack leaves nothing of them. The stack is painted, a call is made, and what stands below is looked at without another call in between. Not for the
   sanitizers: they lay out the stack in their own way. */
#include "castulfrisa.h"
#include "help.h"
#include <stdio.h>
#include <string.h>

static const char help[] =
    "usage: stack_2      (or stack_0, stack_lazy: not optimized, memcpy and memset looked up late; stack_small_2 ..: the library for size)\n"
    "What the calls leave of secrets and keys on the stack, how deep each goes, and that castulfrisa_wipe_stack leaves nothing of them.\n"
    "`make c-host` makes it, in build/host; tests/targets.py makes it for other machines. It takes a second.\n"
    "Exits 0 with a line for each call, 1 where something is left, or where what was planted is not seen, 2 where it is called wrongly.\n";

#define DEPTH 32768 /* painted: far more than any call takes */
#define PAINT 0xd5
#define PIECE 8 /* so many bytes of a secret in a row, as a register holds them, are a copy */
#define EX CASTULFRISA_EXCHANGE
#define ROOM CASTULFRISA_ROOM
#define NOINLINE __attribute__((noinline))

/* ---- the stack */

static uintptr_t top;                     /* the upper end of what is looked at: where the frame ends that had the stack painted */
static uint8_t left[DEPTH], wiped[DEPTH]; /* what a call left below that frame, and what the wiping left of it */
static int failed;

static NOINLINE void paint(void)
{
    volatile uint8_t below[DEPTH];
    size_t i;
    for (i = 0; i < DEPTH; i++) below[i] = PAINT;
    top = (uintptr_t)__builtin_frame_address(0);
    if (top < (uintptr_t)below + DEPTH) top = (uintptr_t)below + DEPTH; /* ARM's is below a frame's objects */
    if (top - ((uintptr_t)below + DEPTH) > 256) failed = 1;             /* between the two nothing is painted */
}

/* In its caller's own frame, and with no call: a frame of its own would lie on what is to be seen. */
static inline __attribute__((always_inline)) void look(uint8_t *to)
{
    size_t i;
    for (i = 0; i < DEPTH; i++) to[i] = *(const volatile uint8_t *)(top - DEPTH + i);
}

/* ---- the secrets */

static uint64_t method;
static castulfrisa_sizes z;
static uint8_t x[CASTULFRISA_X_MOST], k_pq[CASTULFRISA_K_PQ_SIZE];
static uint8_t digest[CASTULFRISA_H_SIZE]; /* of K_PQ and X: a hybrid's K */
static uint8_t h[CASTULFRISA_H_SIZE], key[CASTULFRISA_KEY_MOST];
static uint64_t h_len, key_len; /* of H and of a key, once they are known: copies of zeros would be seen everywhere */

static int piece_of(const uint8_t *at, const uint8_t *secret, size_t len)
{
    size_t i;
    for (i = 0; i + PIECE <= len; i++)
        if (at[0] == secret[i] && memcmp(at, secret + i, PIECE) == 0) return 1;
    return 0;
}

static int piece_of_any(const uint8_t *at)
{
    return piece_of(at, x, z.x_len) || piece_of(at, k_pq, sizeof k_pq) || piece_of(at, digest, z.digest_len) || piece_of(at, h, h_len)
        || piece_of(at, key, key_len);
}

/* A hash reads words with the high byte first, and this machine keeps them the other way round: pieces of a secret are also those that are one
   when each of their words is turned. */
static int turned_piece(const uint8_t *at, size_t word)
{
    uint8_t turned[PIECE];
    size_t i;
    for (i = 0; i < PIECE; i++) turned[i] = at[i / word * word + word - 1 - i % word];
    return piece_of_any(turned);
}

/* So many bytes of paint are no piece of a secret, and nearly all of the stack: an emulator takes long to compare them with each. */
static int painted(const uint8_t *at)
{
    size_t i;
    for (i = 0; i < PIECE; i++)
        if (at[i] != PAINT) return 0;
    return 1;
}

/* Copies of X, K_PQ, the digest of both, H or the key, whole or in part, and the bytes in them. */
static size_t copies(const uint8_t *stack, size_t *bytes)
{
    size_t i, count = 0, end = 0; /* of the copy that was seen last */
    *bytes = 0;
    for (i = 0; i + PIECE <= DEPTH; i++)
        if (!painted(stack + i) && (piece_of_any(stack + i) || turned_piece(stack + i, 4) || turned_piece(stack + i, 8))) {
            if (i >= end) {
                count++;
                end = i;
            }
            *bytes += i + PIECE - end;
            end = i + PIECE;
        }
    return count;
}

/* ---- what was seen of each call, over all methods */

enum { SECRET_CLIENT, SECRET_SERVER, SIGN, VERDICT, VERDICT_NO, DERIVE, AGAIN, SESSION_ID, NOT_DUE, STATE, FEED, FINISH, SHALLOW, DEEP, CALLS };
static struct { const char *name; size_t copies, bytes, depth, wiped; } seen[CALLS] = {
    {"take_secret, client", 0, 0, 0, 0}, {"take_secret, server", 0, 0, 0, 0}, {"sign", 0, 0, 0, 0}, {"verdict", 0, 0, 0, 0},
    {"verdict, refused", 0, 0, 0, 0}, {"derive", 0, 0, 0, 0}, {"again", 0, 0, 0, 0}, {"session_id", 0, 0, 0, 0},
    {"a step not due", 0, 0, 0, 0}, {"state", 0, 0, 0, 0}, {"hash_feed", 0, 0, 0, 0}, {"hash_finish", 0, 0, 0, 0}, {"planted", 0, 0, 0, 0},
    {"planted too deep", 0, 0, 0, 0}};

static size_t larger(size_t a, size_t b) { return a > b ? a : b; }

static void note(int call, int held)
{
    size_t bytes, untouched = 0, count = copies(left, &bytes);
    if (!held) {
        printf("stack: method %u, %s: another answer than it must be\n", (unsigned)method, seen[call].name);
        failed = 1;
    }
    while (untouched < DEPTH && left[untouched] == PAINT) untouched++;
    seen[call].copies = larger(seen[call].copies, count);
    seen[call].bytes = larger(seen[call].bytes, bytes);
    seen[call].depth = larger(seen[call].depth, DEPTH - untouched);
    seen[call].wiped = larger(seen[call].wiped, copies(wiped, &bytes));
}

/* One call from the frame that it stands in, looked at before and behind the wiping from there. */
#define OBSERVE(call, made) do { \
    int held; \
    paint(); \
    held = (made); \
    look(left); \
    castulfrisa_wipe_stack(); \
    look(wiped); \
    note(call, held); } while (0)

/* ---- the calls */

static uint8_t exchange[EX], room[ROOM], other_exchange[EX], other_room[ROOM];
static uint8_t payload[CASTULFRISA_REPLY], value[CASTULFRISA_VALUE_MOST], out[CASTULFRISA_REPLY], k[CASTULFRISA_K];
static uint8_t hash[CASTULFRISA_HASH_SIZE];
static uint64_t payload_len, count;
static castulfrisa_signed counts;
static castulfrisa_progress told;
static castulfrisa_session session;
static uint8_t id[CASTULFRISA_H_SIZE];
static const uint8_t kexinit[] = {20};

static NOINLINE void secret(int call)
{
    uint64_t kem = z.hybrid ? CASTULFRISA_KEM_DONE : CASTULFRISA_KEM_ABSENT, k_pq_len = z.hybrid ? sizeof k_pq : 0;
    OBSERVE(call, castulfrisa_take_secret(exchange, EX, room, ROOM, 1, z.x_len, x, z.x_len, kem, k_pq, k_pq_len, value, 9, value, z.s_len,
                                          &count, h) == 0);
    h_len = z.digest_len;
}

/* K_PQ and X hashed as a host may hash them: what waits goes into a block with what comes. */
static NOINLINE void feed(void)
{
    OBSERVE(FEED, castulfrisa_hash_feed(hash, sizeof hash, x, z.x_len) == 0);
}

static NOINLINE void finish(void)
{
    OBSERVE(FINISH, castulfrisa_hash_finish(hash, sizeof hash, digest) == 0);
}

/* The digest is known first, so that its copies are seen: one of zeros would be seen everywhere. */
static void hashed(void)
{
    int again;
    for (again = 0; again < 2; again++) {
        if (castulfrisa_hash_start(hash, sizeof hash, z.digest_len) != 0 || castulfrisa_hash_feed(hash, sizeof hash, k_pq, sizeof k_pq) != 0)
            failed = 1;
        if (again) feed();
        else if (castulfrisa_hash_feed(hash, sizeof hash, x, z.x_len) != 0 || castulfrisa_hash_finish(hash, sizeof hash, digest) != 0)
            failed = 1;
    }
    finish();
}

static NOINLINE void sign(void)
{
    OBSERVE(SIGN, castulfrisa_sign(exchange, EX, room, ROOM, value, 9, out, sizeof out, k, sizeof k, &counts) == 0);
}

static NOINLINE void verdict(void) { OBSERVE(VERDICT, castulfrisa_verdict(exchange, EX, room, ROOM, 1, 1, k, sizeof k, &count) == 0); }

static NOINLINE void verdict_no(void)
{
    memcpy(other_exchange, exchange, EX);
    memcpy(other_room, room, ROOM);
    OBSERVE(VERDICT_NO, castulfrisa_verdict(other_exchange, EX, other_room, ROOM, 1, 0, k, sizeof k, &count) == CASTULFRISA_VERDICT);
}

/* The longest key, of every digest that there is. It is known first, as the digest is. */
static NOINLINE void derive(void)
{
    if (castulfrisa_derive(exchange, EX, CASTULFRISA_CIPHER_KEY_C2S, sizeof key, key, sizeof key) != 0) failed = 1;
    key_len = sizeof key;
    OBSERVE(DERIVE, castulfrisa_derive(exchange, EX, CASTULFRISA_CIPHER_KEY_C2S, sizeof key, key, sizeof key) == 0);
}

/* Of the complete exchange, whose keys were derived. The identifier is H. */
static NOINLINE void session_id(void) { OBSERVE(SESSION_ID, castulfrisa_session_id(exchange, EX, &session, id) == 0); }

static NOINLINE void again(void)
{
    OBSERVE(AGAIN, castulfrisa_again(exchange, EX, room, ROOM, method, kexinit, sizeof kexinit, kexinit, sizeof kexinit) == 0);
}

static NOINLINE void not_due(void)
{
    OBSERVE(NOT_DUE, castulfrisa_own_c(exchange, EX, room, ROOM, value, z.c_len, out, sizeof out, &count) == CASTULFRISA_NOT_DUE);
}

static NOINLINE void state(void) { OBSERVE(STATE, castulfrisa_state(exchange, EX, &told) == 0); }

/* What shows that copies are seen and wiped, and that those below the piece that is wiped are seen and not wiped. */
static NOINLINE int plant(size_t below)
{
    volatile uint8_t here[2 * CASTULFRISA_STACK];
    size_t i;
    for (i = 0; i < z.x_len; i++) here[sizeof here - CASTULFRISA_X_MOST - below + i] = x[i];
    return here[sizeof here - CASTULFRISA_X_MOST - below] == x[0];
}

static NOINLINE void planted(void) { OBSERVE(SHALLOW, plant(256)); }
static NOINLINE void planted_too_deep(void) { OBSERVE(DEEP, plant(CASTULFRISA_STACK + 256)); }

/* ---- the exchanges */

static uint64_t put(uint8_t *at, uint64_t len)
{
    at[0] = at[1] = 0;
    at[2] = (uint8_t)(len >> 8);
    at[3] = (uint8_t)len;
    memcpy(at + 4, value, len);
    return 4 + len;
}

static void started(uint64_t role)
{
    static const uint8_t v[] = "v";
    castulfrisa_init told;
    castulfrisa_reply parts;
    int good = castulfrisa_start(exchange, EX, role, method, v, 1, v, 1, kexinit, sizeof kexinit, kexinit, sizeof kexinit, room, ROOM) == 0;
    h_len = key_len = 0;
    if (role == CASTULFRISA_CLIENT) {
        payload[0] = 31;
        payload_len = 1 + put(payload + 1, 9);
        payload_len += put(payload + payload_len, z.s_len);
        payload_len += put(payload + payload_len, 9);
        good = good && castulfrisa_own_c(exchange, EX, room, ROOM, value, z.c_len, out, sizeof out, &count) == 0
            && castulfrisa_read_reply(exchange, EX, room, ROOM, payload, payload_len, &parts) == 0;
    } else {
        payload[0] = 30;
        payload_len = 1 + put(payload + 1, z.c_len);
        good = good && castulfrisa_read_init(exchange, EX, room, ROOM, payload, payload_len, &told) == 0;
    }
    if (!good) {
        printf("stack: method %u: no exchange to look at\n", (unsigned)method);
        failed = 1;
    }
}

int main(int argc, char **argv)
{
    uint32_t r = 20261115;
    size_t i, deepest = 0;
    int status = helped(argc, argv, help);
    if (status >= 0) return status;

    memset(value, 4, sizeof value);
    for (i = 0; i < sizeof x; i++) x[i] = (uint8_t)((r = r * 1664525 + 1013904223) >> 24);
    for (i = 0; i < sizeof k_pq; i++) k_pq[i] = (uint8_t)((r = r * 1664525 + 1013904223) >> 24);
    for (method = 1; castulfrisa_method_sizes(method, &z) == 0; method++) {
        hashed();
        started(CASTULFRISA_CLIENT);
        secret(SECRET_CLIENT);
        state();
        not_due();
        verdict_no();
        verdict();
        derive();
        session_id();
        again();
        started(CASTULFRISA_SERVER);
        secret(SECRET_SERVER);
        sign();
        derive();
        again();
        planted();
        planted_too_deep();
    }

    for (i = 0; i < CALLS; i++) {
        printf("stack: %-20s %2u copies, %4u bytes in them, %4u deep; wiped: %u copies\n", seen[i].name, (unsigned)seen[i].copies,
               (unsigned)seen[i].bytes, (unsigned)seen[i].depth, (unsigned)seen[i].wiped);
        if (i < SHALLOW) {
            deepest = larger(deepest, seen[i].depth);
            if (seen[i].wiped > 0) failed = 1;
        }
    }
    if (deepest >= CASTULFRISA_STACK) failed = 1;
    if (seen[SHALLOW].copies != 1 || seen[SHALLOW].wiped != 0 || seen[DEEP].copies != 1 || seen[DEEP].wiped != 1) {
        puts("stack: what was planted is not seen");
        failed = 1;
    }
    printf("stack: %u bytes deep at most, %u are wiped: %s\n", (unsigned)deepest, CASTULFRISA_STACK, failed ? "failed" : "ok");
    return failed;
}
