/* The bench: reads calls from standard input, one a line, makes them through the boundary and prints an answer line for each, so
   that the library can be held against another implementation given the same script. What it prints comes out of the library;
   the only answers of its own are the 0 of room, poke, set, put, blank and shaset, which are no calls of the library. */
#define _POSIX_C_SOURCE 200809L
#include "castulfrisa.h"
#include <inttypes.h>
#include <signal.h>
#include <stdbool.h>
#include <stdio.h>
#include <stdlib.h>
#include <string.h>
#include <sys/types.h>

#define MOST_TOKENS 15 /* wkex: its name, the cookie, ten lists, boolean, reserved number, output */
#define LENGTHS 7      /* the recorded lengths, l0 to l6 */
#define SLEN LENGTHS   /* behind them the session identifier's, slen */

/* The bytes of an exchange. A host has no business with them; here they are forged and shown. */
enum {
    MARK_AT = 0, STAGE_AT = 1, FAIL_AT = 2, ROLE_AT = 3, METHOD_AT = 4, LENGTHS_AT = 5, K_AT = LENGTHS_AT + 2 * LENGTHS,
    H_AT = K_AT + CASTULFRISA_K, SLEN_AT = H_AT + CASTULFRISA_H_SIZE, COUNT_AT = SLEN_AT + 2, SID_AT = COUNT_AT + 8
};
_Static_assert(SID_AT + CASTULFRISA_H_SIZE == CASTULFRISA_EXCHANGE, "the exchange's bytes");
#define MARK 3                 /* of this layout: bytes with another mark are no exchange's */
#define LENGTH_MOST UINT16_MAX /* the most that a recorded length's two bytes hold */

/* Those of a hash, likewise: its kind, and two numbers of eight bytes, the bytes fed in all and those that wait. */
enum { KIND_AT = 0, TOTAL_AT = 1, HELD_AT = 9 };

typedef struct { uint8_t *at; size_t len; } bytes; /* a block of exactly len bytes; NULL for none */

/* ---- what is kept between lines */

static unsigned long line; /* the number of the line in hand, for its error */
static char *text;         /* its text, in getline's buffer */
static size_t text_room;
static bytes lent[MOST_TOKENS]; /* the blocks that this line lends, no more than its tokens, freed after its answer */
static size_t lents;

static uint8_t exchange[CASTULFRISA_EXCHANGE]; /* its fail number is 0 unless it failed, as in every answer line */
static uint8_t fail;                           /* what `set fail` left for a stage that is set to failed later */
static uint64_t wide[LENGTHS + 1];             /* a length that was set above what its bytes hold; 0 where they hold it */
static bytes room;
static bytes view; /* the payload that open was given, and where next stands in it */
static castulfrisa_cursor cursor;
static uint8_t hash[CASTULFRISA_HASH_SIZE];

/* Frees what the line has lent. */
static void give_back(void)
{
    while (lents > 0) free(lent[--lents].at);
}

static void clean(void)
{
    give_back();
    free(room.at);
    free(view.at);
    free(text);
}

/* Ends the run at the line in hand. The answers before it stand, so they go out first. */
static _Noreturn void bad(const char *what)
{
    fflush(stdout);
    fprintf(stderr, "bench: line %lu: %s\n", line, what);
    clean();
    exit(1);
}

/* ---- tokens */

static const char *const stages[] = {
    [CASTULFRISA_STARTED] = "started", [CASTULFRISA_C_SENT] = "own_c", [CASTULFRISA_INIT_READ] = "init",
    [CASTULFRISA_REPLY_READ] = "reply", [CASTULFRISA_SECRET_DONE] = "secret", [CASTULFRISA_COMPLETE] = "complete",
    [CASTULFRISA_FAILED] = "failed",
};
static const char *const kems[] = {
    [CASTULFRISA_KEM_ABSENT] = "a", [CASTULFRISA_KEM_FAILED] = "f", [CASTULFRISA_KEM_DONE] = "d"};
#define COUNT(row) (sizeof row / sizeof row[0])

/* A decimal number of digits alone, at most `most`. */
static uint64_t number(const char *token, uint64_t most)
{
    uint64_t n = 0;
    if (*token == '\0') bad("a number is missing");
    for (; *token != '\0'; token++) {
        if (*token < '0' || *token > '9') bad("not a decimal number");
        uint64_t digit = (uint64_t)(*token - '0');
        /* judged before it is computed, so that nothing wraps */
        if (digit > most || n > (most - digit) / 10) bad("number out of range");
        n = n * 10 + digit;
    }
    return n;
}

static uint8_t byte(const char *token) { return (uint8_t)number(token, UINT8_MAX); }

/* The place of a token among words; `wrong` where it is none of them. */
static size_t word(const char *token, const char *const *words, size_t count, const char *wrong)
{
    for (size_t i = 0; i < count; i++)
        if (strcmp(token, words[i]) == 0) return i;
    bad(wrong);
}

static unsigned nibble(char c)
{
    if (c >= '0' && c <= '9') return (unsigned)(c - '0');
    if (c >= 'a' && c <= 'f') return (unsigned)(c - 'a') + 10;
    if (c >= 'A' && c <= 'F') bad("upper-case hex digit");
    bad("not a hex digit");
}

/* A block of exactly len bytes, so that a sanitizer sees a touch outside it. No bytes are NULL, which nobody can touch unnoticed. */
static bytes block(size_t len)
{
    bytes b = {NULL, len};
    if (len > 0 && (b.at = malloc(len)) == NULL) bad("no memory");
    lent[lents++] = b;
    return b;
}

/* The bytes of a token H or H*N. */
static bytes lend(const char *token)
{
    const char *star = strchr(token, '*');
    size_t digits = star ? (size_t)(star - token) : strlen(token);
    bool none = digits == 1 && token[0] == '-';
    size_t have = none ? 0 : digits / 2;

    if (digits == 0) bad("hex digits are missing before *");
    /* every digit is judged, also those that a short N cuts off */
    for (size_t i = 0; !none && i < digits; i++) nibble(token[i]);
    if (!none && digits % 2 != 0) bad("odd number of hex digits");

    size_t len = star ? (size_t)number(star + 1, SIZE_MAX) : have;
    if (len > 0 && have == 0) bad("no bytes to repeat");
    bytes b = block(len);
    for (size_t i = 0; i < b.len; i++)
        b.at[i] = i < have ? (uint8_t)(nibble(token[2 * i]) << 4 | nibble(token[2 * i + 1])) : b.at[i - have];
    return b;
}

/* Keeps the line's first block in slot. What was there becomes the line's, and is freed with it. */
static void keep(bytes *slot)
{
    bytes old = *slot;
    *slot = lent[0];
    lent[0] = old;
}

/* ---- answers */

/* Numbers that a call is to fill in: any that it leaves alone shows in the answer. */
#define LEND(type, name) \
    type name;           \
    memset(&name, 0xa5, sizeof name)

static void put_number(uint64_t n) { printf("%" PRIu64, n); }

/* A count, a position, or a yes/no as 1 or 0. */
static void put_count(uint64_t n) { printf(" %" PRIu64, n); }

static void put_hex(const uint8_t *at, size_t len)
{
    static const char hex[] = "0123456789abcdef";
    for (size_t i = 0; i < len; i++) {
        putchar_unlocked(hex[at[i] >> 4]);
        putchar_unlocked(hex[at[i] & 15]);
    }
}

/* A part of input. A part outside it would be the library's fault, and its bytes nobody's. */
static void put_part(castulfrisa_part p, bytes input)
{
    if (p.start > input.len || p.len > input.len - p.start) bad("the library gave a part outside its input");
    printf(" %" PRIu64 ":", p.start);
    if (p.len == 0) putchar('-');
    else put_hex(input.at + p.start, (size_t)p.len);
}

/* H or a digest, all of its bytes. */
static void put_h(bytes h)
{
    putchar(' ');
    put_hex(h.at, h.len);
}

/* n modulo 2^31 - 1, for n below 2^61. A division of 64 bits is a call on a machine of 32, and this one is made for each byte. */
static uint32_t reduced(uint64_t n)
{
    uint32_t m = 2147483647, sum = (uint32_t)(n & m) + (uint32_t)(n >> 31);
    return sum < m ? sum : sum - m;
}

/* The protocol's digest: neither product reaches 2^48. */
static void put_digest(const uint8_t *at, size_t len)
{
    uint32_t h = 0, g = 0;
    for (size_t i = 0; i < len; i++) {
        h = reduced((uint64_t)h * 257 + at[i] + 1);
        g = reduced((uint64_t)g * 65599 + at[i] + 1);
    }
    printf("%08" PRIx32 "%08" PRIx32, h, g);
}

static void put_out(bytes out)
{
    printf(" out=%zu:", out.len);
    put_digest(out.at, out.len);
}

static void put_written(uint64_t n, uint64_t count, bytes out)
{
    put_number(n);
    put_count(count);
    put_out(out);
}

/* ---- the exchange's bytes */

static uint8_t *length_bytes(size_t i) { return exchange + (i == SLEN ? SLEN_AT : LENGTHS_AT + 2 * i); }

static uint64_t length(size_t i)
{
    const uint8_t *at = length_bytes(i);
    return wide[i] > 0 ? wide[i] : (uint64_t)at[0] << 8 | at[1];
}

static void set_length(size_t i, uint64_t n)
{
    uint8_t *at = length_bytes(i);
    wide[i] = n > LENGTH_MOST ? n : 0;
    at[0] = (uint8_t)(n >> 8);
    at[1] = (uint8_t)n;
}

/* A number of eight bytes, of the exchange or of the hash. */
static uint64_t eight(const uint8_t *at)
{
    uint64_t n = 0;
    for (size_t i = 0; i < 8; i++) n = n << 8 | at[i];
    return n;
}

static void set_eight(uint8_t *at, uint64_t n)
{
    for (size_t i = 8; i > 0; i--, n >>= 8) at[i - 1] = (uint8_t)n;
}

/* What a call is handed: the exchange; but where a length is above what its bytes hold, so that no exchange has it, other bytes that no
   exchange has, for the library to refuse. */
static uint8_t *handed(void)
{
    static uint8_t none[CASTULFRISA_EXCHANGE];
    for (size_t i = 0; i < COUNT(wide); i++)
        if (wide[i] > 0) {
            memcpy(none, exchange, sizeof none);
            none[MARK_AT] = MARK - 1;
            return none;
        }
    return exchange;
}

/* What the library tells of the session is in the exchange's bytes, or nothing. */
static void told_as_kept(void)
{
    static const castulfrisa_session none;
    static const uint8_t zeros[CASTULFRISA_H_SIZE];
    LEND(castulfrisa_session, told);
    uint8_t id[CASTULFRISA_H_SIZE];
    memset(id, 0xa5, sizeof id);
    bool tells = castulfrisa_session_id(handed(), CASTULFRISA_EXCHANGE, &told, id) == 0;
    castulfrisa_session kept = tells ? (castulfrisa_session){length(SLEN), eight(exchange + COUNT_AT)} : none;
    if (told.id_len != kept.id_len || told.completed != kept.completed || memcmp(id, tells ? exchange + SID_AT : zeros, sizeof id) != 0)
        bad("the library's session is not in the exchange's bytes");
}

static void put_exchange(void)
{
    told_as_kept();
    LEND(castulfrisa_progress, told);
    /* what is kept is always an exchange's, and the library reads in it what is shown */
    if (castulfrisa_state(exchange, sizeof exchange, &told) != 0 || told.stage != exchange[STAGE_AT] || told.fail != exchange[FAIL_AT]
        || told.role != exchange[ROLE_AT] || told.method != exchange[METHOD_AT])
        bad("the library's state is not in the exchange's bytes");
    printf(" | ex %" PRIu64 ".%" PRIu64 ".%s.%" PRIu64, told.role, told.method, stages[told.stage], told.fail);
    for (size_t i = 0; i < LENGTHS; i++) printf("%c%" PRIu64, i == 0 ? '.' : ',', length(i));
    fputs(" k=", stdout);
    put_digest(exchange + K_AT, CASTULFRISA_K);
    fputs(" h=", stdout);
    put_digest(exchange + H_AT, CASTULFRISA_H_SIZE);
    printf(" sid=%" PRIu64 ":", length(SLEN));
    put_digest(exchange + SID_AT, CASTULFRISA_H_SIZE);
    printf(" n=%" PRIu64 " room=", eight(exchange + COUNT_AT));
    put_digest(room.at, room.len);
}

/* The number of a step. */
static void put_step(uint64_t n)
{
    if (exchange[STAGE_AT] == CASTULFRISA_FAILED) fail = exchange[FAIL_AT];
    put_number(n);
}

/* ---- calls without an exchange; t[0] is the call's name, and the table has seen to the number of tokens. A call reads all its
   tokens before it prints, so that a bad line has no answer. */

static void call_rstr(char **t)
{
    bytes s = lend(t[1]);
    LEND(castulfrisa_string, parts);
    put_number(castulfrisa_read_string(s.at, s.len, &parts));
    put_part(parts.body, s);
    put_part(parts.rest, s);
}

static void call_wstr(char **t)
{
    bytes body = lend(t[1]), out = lend(t[2]);
    LEND(uint64_t, count);
    uint64_t n = castulfrisa_write_string(out.at, out.len, body.at, body.len, &count);
    put_written(n, count, out);
}

static void call_rmpint(char **t)
{
    bytes s = lend(t[1]);
    LEND(castulfrisa_string, parts);
    LEND(int64_t, sign);
    put_number(castulfrisa_read_mpint(s.at, s.len, &sign, &parts));
    printf(" %" PRId64, sign);
    put_part(parts.body, s);
    put_part(parts.rest, s);
}

static void call_wmpint(char **t)
{
    bytes number_bytes = lend(t[1]), out = lend(t[2]);
    LEND(uint64_t, count);
    uint64_t n = castulfrisa_write_mpint(out.at, out.len, number_bytes.at, number_bytes.len, &count);
    put_written(n, count, out);
}

static void call_open(char **t)
{
    bytes p = lend(t[1]);
    LEND(castulfrisa_opened, o);
    uint64_t n = castulfrisa_open_list(p.at, p.len, number(t[2], UINT64_MAX), &o);
    keep(&view);
    cursor = o.cursor;
    put_number(n);
    put_part(o.cookie, view);
    put_count(o.follows);
    put_count(o.reserved);
    put_count(o.position);
}

static void call_next(char **t)
{
    (void)t;
    LEND(castulfrisa_part, name);
    uint64_t n = castulfrisa_next_name(view.at, view.len, &cursor, &name);
    put_number(n);
    if (n == 0 && name.len == 0) fputs(" end", stdout);
    else put_part(name, view);
}

/* Has a cursor of its own: the view stays where it was. */
static void call_names(char **t)
{
    bytes p = lend(t[1]);
    LEND(castulfrisa_opened, o);
    LEND(castulfrisa_part, name);
    put_number(castulfrisa_open_list(p.at, p.len, number(t[2], UINT64_MAX), &o));
    uint64_t n = castulfrisa_next_name(p.at, p.len, &o.cursor, &name);
    for (; n == 0 && name.len > 0; n = castulfrisa_next_name(p.at, p.len, &o.cursor, &name)) put_part(name, p);
    if (n == 0) fputs(" end", stdout);
    else put_count(n);
}

static void call_wkex(char **t)
{
    bytes cookie = lend(t[1]);
    castulfrisa_bytes lists[CASTULFRISA_LISTS];
    uint64_t ends[CASTULFRISA_LISTS], total = 0;
    for (size_t i = 0; i < CASTULFRISA_LISTS; i++) {
        bytes list = lend(t[2 + i]);
        lists[i] = (castulfrisa_bytes){list.at, list.len};
        total += list.len;
    }
    uint64_t follows = number(t[12], UINT64_MAX) != 0, reserved = number(t[13], UINT32_MAX);
    bytes out = lend(t[14]), joined = block((size_t)total);
    if (castulfrisa_join(lists, joined.at, joined.len, ends) != total) bad("the header's join has another length");
    LEND(castulfrisa_proposed, told);
    uint64_t n = castulfrisa_write_kexinit(
        out.at, out.len, cookie.at, cookie.len, joined.at, joined.len, ends, follows, reserved, &told);
    put_written(n, told.count, out);
}

static void call_choose(char **t)
{
    bytes client = lend(t[1]), server = lend(t[2]);
    LEND(castulfrisa_choice, c);
    put_number(castulfrisa_choose(client.at, client.len, server.at, server.len, &c));
    put_count(c.method);
    put_part(c.host_key, client);
    put_count(c.ignore_client);
    put_count(c.ignore_server);
}

/* ---- the hash */

/* A place for H or a digest. Any byte of it that the library leaves alone shows in the answer. */
static bytes lend_h(void)
{
    bytes h = block(CASTULFRISA_H_SIZE);
    memset(h.at, 0xa5, h.len);
    return h;
}

static void put_hash(uint64_t n)
{
    put_number(n);
    printf(" %u.%" PRIu64 ".%" PRIu64, hash[KIND_AT], eight(hash + TOTAL_AT), eight(hash + HELD_AT));
}

static void call_sha(char **t) { put_hash(castulfrisa_hash_start(hash, sizeof hash, byte(t[1]))); }

static void call_feed(char **t)
{
    bytes part = lend(t[1]);
    put_hash(castulfrisa_hash_feed(hash, sizeof hash, part.at, part.len));
}

static void call_finish(char **t)
{
    (void)t;
    bytes digest = lend_h();
    put_number(castulfrisa_hash_finish(hash, sizeof hash, digest.at));
    put_h(digest);
}

static void call_shaset(char **t)
{
    if (strcmp(t[1], "kind") == 0) hash[KIND_AT] = byte(t[2]);
    else if (strcmp(t[1], "total") == 0) set_eight(hash + TOTAL_AT, number(t[2], UINT64_MAX));
    else if (strcmp(t[1], "tail") == 0) set_eight(hash + HELD_AT, number(t[2], UINT64_MAX));
    else bad("unknown field");
    put_hash(0);
}

/* ---- what stands between the steps: room and record as a test wants them */

static void call_room(char **t)
{
    lend(t[1]);
    keep(&room);
    put_number(0);
}

static void call_poke(char **t)
{
    size_t at = (size_t)number(t[1], SIZE_MAX);
    bytes b = lend(t[2]);
    if (at > room.len || b.len > room.len - at) bad("poke past the room's end");
    if (b.len > 0) memcpy(room.at + at, b.at, b.len);
    put_number(0);
}

/* The place below count that a field's digits name, in their one spelling: 0 of l0, 70 of k70. */
static size_t place(const char *digits, size_t count)
{
    char spelling[24];
    for (size_t i = 0; i < count; i++) {
        snprintf(spelling, sizeof spelling, "%zu", i);
        if (strcmp(digits, spelling) == 0) return i;
    }
    bad("unknown field");
}

static void call_set(char **t)
{
    const char *field = t[1], *value = t[2];
    if (strcmp(field, "role") == 0) exchange[ROLE_AT] = byte(value);
    else if (strcmp(field, "method") == 0) exchange[METHOD_AT] = byte(value);
    else if (strcmp(field, "stage") == 0) exchange[STAGE_AT] = (uint8_t)word(value, stages, COUNT(stages), "unknown stage");
    else if (strcmp(field, "fail") == 0) fail = byte(value);
    else if (strcmp(field, "slen") == 0) set_length(SLEN, number(value, UINT64_MAX));
    else if (strcmp(field, "count") == 0) set_eight(exchange + COUNT_AT, number(value, UINT64_MAX));
    else if (field[0] == 'l') set_length(place(field + 1, LENGTHS), number(value, UINT64_MAX));
    else if (field[0] == 'k') exchange[K_AT + place(field + 1, CASTULFRISA_K)] = byte(value);
    else if (field[0] == 'h') exchange[H_AT + place(field + 1, CASTULFRISA_H_SIZE)] = byte(value);
    else if (field[0] == 's') exchange[SID_AT + place(field + 1, CASTULFRISA_H_SIZE)] = byte(value);
    else bad("unknown field");
    exchange[FAIL_AT] = exchange[STAGE_AT] == CASTULFRISA_FAILED ? fail : 0;
    put_number(0);
}

static void call_put(char **t)
{
    static const char *const fields[] = {"k", "h", "sid"};
    static const struct { size_t at, len; } places[] = {
        {K_AT, CASTULFRISA_K}, {H_AT, CASTULFRISA_H_SIZE}, {SID_AT, CASTULFRISA_H_SIZE}};
    size_t field = word(t[1], fields, COUNT(fields), "unknown field");
    bytes b = lend(t[2]);
    if (b.len > places[field].len) bad("put past the field's end");
    if (b.len > 0) memcpy(exchange + places[field].at, b.at, b.len);
    put_number(0);
}

static void blank(void)
{
    memset(exchange, 0, sizeof exchange);
    memset(wide, 0, sizeof wide);
    fail = 0;
    exchange[MARK_AT] = MARK;
    exchange[STAGE_AT] = CASTULFRISA_FAILED;
}

static void call_blank(char **t)
{
    (void)t;
    blank();
    put_number(0);
}

/* ---- steps */

static void call_start(char **t)
{
    uint64_t role = byte(t[1]), method = byte(t[2]);
    bytes vc = lend(t[3]), vs = lend(t[4]), ic = lend(t[5]), is = lend(t[6]);
    fail = 0;
    memset(wide, 0, sizeof wide);
    put_step(castulfrisa_start(exchange, sizeof exchange, role, method, vc.at, vc.len, vs.at, vs.len, ic.at, ic.len, is.at, is.len,
                               room.at, room.len));
}

static void call_ownc(char **t)
{
    bytes c = lend(t[1]), out = lend(t[2]);
    LEND(uint64_t, count);
    put_step(castulfrisa_own_c(handed(), CASTULFRISA_EXCHANGE, room.at, room.len, c.at, c.len, out.at, out.len, &count));
    put_count(count);
    put_out(out);
}

/* A part that was asked for ahead of the step, with the same exchange, room and payload, is the step's own, and so is its number. */
static void same(uint64_t asked, castulfrisa_part a, uint64_t step, castulfrisa_part b)
{
    if (asked != step || a.start != b.start || a.len != b.len) bad("the library's step and its part's own call differ");
}

static void call_init(char **t)
{
    bytes p = lend(t[1]);
    LEND(castulfrisa_part, asked);
    LEND(castulfrisa_init, told);
    uint64_t n = castulfrisa_init_c(handed(), CASTULFRISA_EXCHANGE, room.at, room.len, p.at, p.len, &asked);
    uint64_t step = castulfrisa_read_init(handed(), CASTULFRISA_EXCHANGE, room.at, room.len, p.at, p.len, &told);
    same(n, asked, step, told.c);
    put_step(step);
    put_part(told.c, p);
    put_count(told.position);
}

static void call_reply(char **t)
{
    bytes p = lend(t[1]);
    LEND(castulfrisa_reply, asked);
    LEND(castulfrisa_reply, r);
    uint64_t n[3] = {castulfrisa_reply_host_key(handed(), CASTULFRISA_EXCHANGE, room.at, room.len, p.at, p.len, &asked.host_key),
                     castulfrisa_reply_s(handed(), CASTULFRISA_EXCHANGE, room.at, room.len, p.at, p.len, &asked.s),
                     castulfrisa_reply_signature(handed(), CASTULFRISA_EXCHANGE, room.at, room.len, p.at, p.len, &asked.signature)};
    uint64_t step = castulfrisa_read_reply(handed(), CASTULFRISA_EXCHANGE, room.at, room.len, p.at, p.len, &r);
    same(n[0], asked.host_key, step, r.host_key);
    same(n[1], asked.s, step, r.s);
    same(n[2], asked.signature, step, r.signature);
    put_step(step);
    put_part(r.host_key, p);
    put_part(r.s, p);
    put_part(r.signature, p);
    put_count(r.position);
}

static void call_secret(char **t)
{
    bool given = t[1][0] == 'G';
    if (!given && strcmp(t[1], "F") != 0) bad("the outcome is neither F nor G and a number");
    uint64_t x_count = given ? number(t[1] + 1, UINT64_MAX) : 0;
    bytes x = lend(t[2]);
    uint64_t kem = word(t[3], kems, COUNT(kems), "the KEM is none of a, f and d");
    bytes k_pq = lend(t[4]), ks = lend(t[5]), s = lend(t[6]), h = lend_h();
    LEND(uint64_t, count);
    put_step(castulfrisa_take_secret(handed(), CASTULFRISA_EXCHANGE, room.at, room.len, given, x_count, x.at, x.len, kem, k_pq.at,
                                     k_pq.len, ks.at, ks.len, s.at, s.len, &count, h.at));
    put_count(count);
    put_h(h);
}

static void call_sign(char **t)
{
    bytes signature = lend(t[1]), out = lend(t[2]), k_out = lend(t[3]);
    LEND(castulfrisa_signed, counts);
    put_step(castulfrisa_sign(handed(), CASTULFRISA_EXCHANGE, room.at, room.len, signature.at, signature.len, out.at, out.len,
                              k_out.at, k_out.len, &counts));
    put_count(counts.reply);
    put_count(counts.k);
    put_out(out);
    put_out(k_out);
}

static void call_verdict(char **t)
{
    uint64_t signature = number(t[1], 1), host_key = number(t[2], 1);
    bytes k_out = lend(t[3]);
    LEND(uint64_t, count);
    put_step(castulfrisa_verdict(handed(), CASTULFRISA_EXCHANGE, room.at, room.len, signature, host_key, k_out.at, k_out.len, &count));
    put_count(count);
    put_out(k_out);
}

/* ---- the kept exchange again, in the kept room */

static void call_again(char **t)
{
    uint64_t method = byte(t[1]);
    bytes ic = lend(t[2]), is = lend(t[3]);
    put_step(castulfrisa_again(handed(), CASTULFRISA_EXCHANGE, room.at, room.len, method, ic.at, ic.len, is.at, is.len));
}

/* ---- keys, by a call that is no step */

static void call_derive(char **t)
{
    uint64_t letter = byte(t[1]), length = number(t[2], UINT64_MAX);
    bytes key = lend(t[3]);
    put_number(castulfrisa_derive(handed(), CASTULFRISA_EXCHANGE, letter, length, key.at, key.len));
    put_out(key);
}

/* ---- lines */

static const struct call {
    const char *name, *words; /* what comes behind the name, as --help tells it */
    void (*make)(char **t);
    bool shows; /* whether exchange and room follow in its answer */
} calls[] = {
    {"rstr", " INPUT", call_rstr, false},
    {"wstr", " BODY OUT", call_wstr, false},
    {"rmpint", " INPUT", call_rmpint, false},
    {"wmpint", " NUMBER OUT", call_wmpint, false},
    {"open", " PAYLOAD list", call_open, false},
    {"next", "", call_next, false},
    {"names", " PAYLOAD list", call_names, false},
    {"wkex", " COOKIE L1 L2 L3 L4 L5 L6 L7 L8 L9 L10 follows reserved OUT", call_wkex, false},
    {"choose", " I_C I_S", call_choose, false},
    {"sha", " kind", call_sha, false},
    {"feed", " PART", call_feed, false},
    {"finish", "", call_finish, false},
    {"shaset", " kind|total|tail number", call_shaset, false},
    {"room", " ROOM", call_room, true},
    {"poke", " place BYTES", call_poke, true},
    {"set", " role|method|stage|fail|l0..l6|k0..k70|h0..h63|slen|count|s0..s63 number", call_set, true},
    {"put", " k|h|sid BYTES", call_put, true},
    {"blank", "", call_blank, true},
    {"start", " role method V_C V_S I_C I_S", call_start, true},
    {"ownc", " C OUT", call_ownc, true},
    {"init", " PAYLOAD", call_init, true},
    {"reply", " PAYLOAD", call_reply, true},
    {"secret", " F|Gcount X a|f|d K_PQ K_S S", call_secret, true},
    {"sign", " SIGNATURE OUT K_OUT", call_sign, true},
    {"verdict", " signature host_key K_OUT", call_verdict, true},
    {"again", " method I_C I_S", call_again, true},
    {"derive", " letter length KEY", call_derive, true},
};

/* How many tokens a call has, its name included. */
static size_t tokens(const struct call *c)
{
    size_t n = 1;
    for (const char *at = c->words; *at != '\0'; at++) n += *at == ' ';
    return n;
}

static const struct call *find(const char *name)
{
    for (size_t i = 0; i < COUNT(calls); i++)
        if (strcmp(name, calls[i].name) == 0) return &calls[i];
    bad("unknown call");
}

/* Parts the text in place at its single spaces; gives the number of tokens. */
static size_t part(char **t)
{
    size_t n = 0;
    for (char *at = text, *space; at != NULL; at = space) {
        if (*at == ' ' || *at == '\0') bad("tokens are parted by one space, with none at either end");
        if (n == MOST_TOKENS) bad("wrong number of tokens");
        t[n++] = at;
        space = strchr(at, ' ');
        if (space != NULL) *space++ = '\0';
    }
    return n;
}

/* Makes the call of the text, of len bytes without the newline, and prints its answer. */
static void answer(size_t len)
{
    char *t[MOST_TOKENS];
    if (len == 0 || text[0] == '#') return;
    if (strlen(text) != len) bad("NUL byte");
    if (text[len - 1] == '\r') bad("Windows line end");
    size_t n = part(t);
    const struct call *c = find(t[0]);
    if (n != tokens(c)) bad("wrong number of tokens");
    c->make(t);
    if (c->shows) put_exchange();
    putchar('\n');
    give_back();
    if (ferror(stdout)) bad("standard output cannot be written");
}

/* All of it where somebody asked; else its first line, as an error. */
static int usage(bool asked)
{
    fputs("usage: bench < CALLS\n", asked ? stdout : stderr);
    if (!asked) return 2;
    fputs("Reads calls from standard input, one a line, makes them through the library and prints an answer line for each. Tokens are parted by\n"
          "one space; those in capitals are bytes in hex, - for none, H*N for the bytes H over and over, N in all; the others are decimal numbers,\n"
          "but for the words that stand here, and a stage, which is a word. Lines that are empty or begin with # are no calls. The calls:\n", stdout);
    for (size_t i = 0; i < COUNT(calls); i++) printf("  %s%s\n", calls[i].name, calls[i].words);
    fputs("From room on they are about one kept exchange and one kept room, which their answers show behind a |.\n"
          "tests/examples has scripts and their answers, tests/bench_test.py tries the bench, and plain_bench of host/plain answers the same calls.\n"
          "`make bench` makes it, build/bench; 59,000 calls take a second.\n"
          "Exits 0 at the end of the calls, 1 at a bad line, 2 where it is called wrongly.\n",
          stdout);
    return fflush(stdout) == 0 ? 0 : 1;
}

int main(int argc, char **argv)
{
    static char buffer[1 << 20];
    ssize_t got;

    if (argc > 1) return usage(argc == 2 && (strcmp(argv[1], "-h") == 0 || strcmp(argv[1], "--help") == 0));
    setvbuf(stdout, buffer, _IOFBF, sizeof buffer);
    signal(SIGPIPE, SIG_IGN); /* a reader that left is then an output that cannot be written, and is said */
    blank();
    castulfrisa_opened refused;
    if (castulfrisa_open_list(NULL, 0, 0, &refused) == 0) bad("the library opens no bytes");
    cursor = refused.cursor;
    if (castulfrisa_hash_start(hash, sizeof hash, 0) == 0) bad("the library starts a hash of no kind");

    while ((got = getline(&text, &text_room, stdin)) > 0) {
        size_t len = (size_t)got;
        line++;
        if (text[len - 1] == '\n') text[--len] = '\0';
        answer(len);
    }
    if (!feof(stdin)) {
        line++;
        bad("cannot be read");
    }
    if (fflush(stdout) != 0) bad("standard output cannot be written");
    clean();
    return 0;
}
