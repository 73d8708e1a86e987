/* The header against the library, in C and in C++: every entry is called, and what the header says of it is tried. Here is what needs no
   exchange; header_steps.c has the exchanges, header_32.c the sizes. */
#define _DEFAULT_SOURCE
#include "header_test.h"
#include "help.h"
#include <stdio.h>
#include <sys/mman.h>

static const char help[] =
    "usage: header_c      (or header_cc, header_san, header_small: in C++, under the sanitizers, with the library for size)\n"
    "Every entry of include/castulfrisa.h is called, and what the header says of it is tried, exchanges in all methods and both roles among it.\n"
    "`make c-host` makes it, in build/host; tests/targets.py makes it for other machines. It takes half a second.\n"
    "Exits 0 and says ok, 1 where the library does otherwise, with a line for each of the first 20 differences, 2 where it is called wrongly.\n";

static int failed;
uint64_t method;

void is(int holds, const char *what)
{
    static int lines;
    if (holds) return;
    failed = 1;
    if (++lines > 20) return; /* one cause has many effects */
    printf("not so: %s", what);
    if (method != 0) printf(" (method %u)", (unsigned)method);
    putchar('\n');
}

/* ---- strings and mpints */

static void strings(void)
{
    static const struct { const char *bytes; uint64_t len; } cut[] = {
        {NULL, 0}, {"\0\0\0", 3}, {"\0\0\0\3ab", 6}, {"\xff\xff\xff\xfd\0ab", 7}, {"\xff\xff\xff\xff", 4}};
    uint8_t out[16];
    size_t i;
    LEND(castulfrisa_string, s);
    LEND(uint64_t, count);

    is(castulfrisa_read_string(b("\0\0\0\2abc"), 7, &s.told) == 0 && KEPT(s), "a string read");
    is(part_is(s.told.body, 4, 2) && part_is(s.told.rest, 6, 1), "its parts");
    for (i = 0; i < COUNT(cut); i++) {
        AGAIN(s);
        is(castulfrisa_read_string(b(cut[i].bytes), cut[i].len, &s.told) == CASTULFRISA_PAST_END && ZERO(s), "12, a string");
    }

    memset(out, FILL, sizeof out);
    is(castulfrisa_write_string(out, sizeof out, b("ab"), 2, &count.told) == 0 && count.told == 6 && KEPT(count), "a string written");
    is(memcmp(out, "\0\0\0\2ab", 6) == 0 && all(out + 6, FILL, sizeof out - 6), "its bytes, and none behind");
    is(castulfrisa_write_string(out, 4, NULL, 0, &count.told) == 0 && count.told == 4 && all(out, 0, 4), "an empty one");
    AGAIN(out);
    AGAIN(count);
    is(castulfrisa_write_string(out, 5, b("ab"), 2, &count.told) == CASTULFRISA_SHORT_OUTPUT && ZERO(count), "5, a string");
    is(all(out, FILL, sizeof out), "5, a string: out as it was");
    is(castulfrisa_write_string(NULL, 0, b("ab"), 2, &count.told) == CASTULFRISA_SHORT_OUTPUT, "5, no output");
}

static void mpints(void)
{
    uint8_t out[16];
    LEND(castulfrisa_string, s);
    LEND(int64_t, sign);
    LEND(uint64_t, count);

    is(castulfrisa_read_mpint(b("\0\0\0\2\xff\x7fz"), 7, &sign.told, &s.told) == 0 && sign.told == -1, "a negative mpint read");
    is(part_is(s.told.body, 4, 2) && part_is(s.told.rest, 6, 1) && KEPT(s) && KEPT(sign), "its parts");
    is(castulfrisa_read_mpint(b("\0\0\0\1\1"), 5, &sign.told, &s.told) == 0 && sign.told == 1, "a positive one");
    is(castulfrisa_read_mpint(b("\0\0\0\0"), 4, &sign.told, &s.told) == 0 && sign.told == 0 && part_is(s.told.body, 4, 0), "zero");
    AGAIN(s);
    AGAIN(sign);
    is(castulfrisa_read_mpint(b("\0\0\0\2\0\x7f"), 6, &sign.told, &s.told) == CASTULFRISA_NOT_SHORTEST, "22");
    is(ZERO(s) && ZERO(sign), "22: told 0");
    AGAIN(s);
    AGAIN(sign);
    is(castulfrisa_read_mpint(b("\0\0\0\2\xff"), 5, &sign.told, &s.told) == CASTULFRISA_PAST_END, "12, an mpint");
    is(ZERO(s) && ZERO(sign), "12, an mpint: told 0");

    memset(out, FILL, sizeof out);
    is(castulfrisa_write_mpint(out, sizeof out, b("\xff\xff\x7f"), 3, &count.told) == 0 && KEPT(count), "an mpint written");
    is(count.told == 6, "its count");
    is(memcmp(out, "\0\0\0\2\xff\x7f", 6) == 0 && all(out + 6, FILL, sizeof out - 6), "its bytes, and none behind");
    is(castulfrisa_write_mpint(out, 4, NULL, 0, &count.told) == 0 && count.told == 4 && all(out, 0, 4), "zero written");
    AGAIN(out);
    AGAIN(count);
    is(castulfrisa_write_mpint(out, 5, b("\xff\xff\x7f"), 3, &count.told) == CASTULFRISA_SHORT_OUTPUT && ZERO(count), "5, an mpint");
    is(all(out, FILL, sizeof out), "5, an mpint: out as it was");
}

/* A body of 2^32 bytes is 4, one of a byte less is 5. Of the addresses behind both only the first page is ever touched. 32 bits have no
   others, and the lengths cross all the same: no bit of them is lost. */
#if SIZE_MAX > 4294967295u
#define LENT WIDE
#else
#define LENT 4096
#endif
static void longest_bodies(void)
{
    uint8_t out[16];
    uint64_t most = WIDE - 1;
    void *map = mmap(NULL, LENT, PROT_READ | PROT_WRITE, MAP_PRIVATE | MAP_ANONYMOUS | MAP_NORESERVE, -1, 0);
    uint8_t *body = (uint8_t *)map;
    LEND(uint64_t, count);
    is(map != MAP_FAILED, "addresses for the longest body");
    if (map == MAP_FAILED) return;
    body[0] = 1;
    memset(out, FILL, sizeof out);
    is(castulfrisa_write_string(out, sizeof out, body, most + 1, &count.told) == CASTULFRISA_BAD_INPUT && ZERO(count), "4, a string");
    AGAIN(count);
    is(castulfrisa_write_mpint(out, sizeof out, body, most + 1, &count.told) == CASTULFRISA_BAD_INPUT && ZERO(count), "4, an mpint");
    is(castulfrisa_write_string(out, sizeof out, body, most, &count.told) == CASTULFRISA_SHORT_OUTPUT, "no 4, a string");
    is(castulfrisa_write_mpint(out, sizeof out, body, most, &count.told) == CASTULFRISA_SHORT_OUTPUT, "no 4, an mpint");
    is(all(out, FILL, sizeof out), "4: out as it was");
    munmap(map, LENT);
}

/* ---- methods */

static const char *const names[] = {
    "curve25519-sha256", "curve25519-sha256@libssh.org", "curve448-sha512", "ecdh-sha2-nistp256", "ecdh-sha2-nistp384",
    "ecdh-sha2-nistp521", "mlkem768nistp256-sha256", "mlkem1024nistp384-sha384", "mlkem768x25519-sha256"};
static const castulfrisa_sizes sizes[] = {
    {32, 0, 32, 0, 32, 32, 0, 1}, {32, 0, 32, 0, 32, 32, 0, 1}, {56, 0, 56, 0, 56, 64, 0, 1},
    {65, 0, 65, 0, 32, 32, 0, 0}, {97, 0, 97, 0, 48, 48, 0, 0}, {133, 0, 133, 0, 66, 64, 0, 0},
    {1249, 1184, 1153, 1088, 32, 32, 1, 0}, {1665, 1568, 1665, 1568, 48, 48, 1, 0}, {1216, 1184, 1120, 1088, 32, 32, 1, 1}};

static uint64_t larger(uint64_t a, uint64_t c) { return a > c ? a : c; }

static void methods(void)
{
    static const uint64_t none[] = {0, 10, 255, 256, 256 + 1, 256 + 9, WIDE, WIDE + 1, UINT64_MAX};
    uint8_t out[CASTULFRISA_METHOD_NAME_MOST + 1];
    uint64_t m, value = 0, x = 0, digest = 0, name = 0;
    size_t i, len;
    LEND(castulfrisa_sizes, z);
    LEND(uint64_t, count);

    for (m = 1; m <= 9; m++) {
        method = m;
        len = strlen(names[m - 1]);
        memset(out, FILL, sizeof out);
        AGAIN(count);
        is(castulfrisa_method_name(m, out, len, &count.told) == 0 && count.told == len && KEPT(count), "a method's name");
        is(memcmp(out, names[m - 1], len) == 0 && all(out + len, FILL, sizeof out - len), "its bytes, and none behind");
        is(castulfrisa_method_number(out, count.told) == m, "a name's number");
        is(castulfrisa_method_number(out, len - 1) == 0 && castulfrisa_method_number(out, len + 1) == 0, "a name cut, and a longer one");
        AGAIN(out);
        AGAIN(count);
        is(castulfrisa_method_name(m, out, len - 1, &count.told) == CASTULFRISA_SHORT_OUTPUT && ZERO(count), "5, a name");
        is(all(out, FILL, sizeof out), "5, a name: out as it was");

        AGAIN(z);
        is(castulfrisa_method_sizes(m, &z.told) == 0 && KEPT(z) && memcmp(&z.told, &sizes[m - 1], sizeof z.told) == 0, "sizes");
        value = larger(value, larger(z.told.c_len, z.told.s_len));
        x = larger(x, z.told.x_len);
        digest = larger(digest, z.told.digest_len);
        name = larger(name, len);
    }
    method = 0;
    is(value == CASTULFRISA_VALUE_MOST && x == CASTULFRISA_X_MOST, "the largest C or S, and X");
    is(digest == CASTULFRISA_H_SIZE && name == CASTULFRISA_METHOD_NAME_MOST, "the largest digest and name");

    for (i = 0; i < COUNT(none); i++) {
        AGAIN(out);
        AGAIN(count);
        AGAIN(z);
        is(castulfrisa_method_name(none[i], out, sizeof out, &count.told) == CASTULFRISA_NO_METHOD && ZERO(count), "2, a name");
        is(all(out, FILL, sizeof out), "2, a name: out as it was");
        is(castulfrisa_method_sizes(none[i], &z.told) == CASTULFRISA_NO_METHOD && ZERO(z), "2, sizes");
    }
    is(castulfrisa_method_number(NULL, 0) == 0 && castulfrisa_method_number(b("none"), 4) == 0, "names of no method");
}

/* ---- KEXINIT */

#define COOKIE "0123456789abcdef"
#define RESERVED 0x01020304

static const char *const texts[CASTULFRISA_LISTS] = {"none,curve448-sha512", "rsa,ed", "ci", "co", "mi", "mo", "", "zo", "li", "lo,en"};
static const char *const plain[CASTULFRISA_LISTS] = {"curve448-sha512", "ed", "", "", "", "", "", "", "", ""};

/* The lists that were joined last. */
static uint8_t joined[CASTULFRISA_KEXINIT_MOST];
static uint64_t joined_len, ends[CASTULFRISA_LISTS];

static void join(const char *const lists[])
{
    castulfrisa_bytes parts[CASTULFRISA_LISTS];
    size_t i;
    for (i = 0; i < CASTULFRISA_LISTS; i++) {
        parts[i].at = b(lists[i]);
        parts[i].len = strlen(lists[i]);
    }
    joined_len = castulfrisa_join(parts, joined, sizeof joined, ends);
}

static uint64_t write_joined(uint8_t *out, uint64_t out_len, uint64_t follows, castulfrisa_proposed *told)
{
    return castulfrisa_write_kexinit(out, out_len, b(COOKIE), CASTULFRISA_COOKIE, joined, joined_len, ends, follows, RESERVED, told);
}

static uint64_t kexinit(uint8_t *out, const char *const lists[], uint64_t follows)
{
    castulfrisa_proposed told;
    join(lists);
    return write_joined(out, CASTULFRISA_KEXINIT_MOST, follows, &told) == 0 ? told.count : 0;
}

static void joins(void)
{
    const castulfrisa_bytes lists[CASTULFRISA_LISTS] = {
        {b("ab"), 2}, {NULL, 0}, {b("c"), 1}, {NULL, 0}, {NULL, 0}, {NULL, 0}, {NULL, 0}, {NULL, 0}, {NULL, 0}, {b("def"), 3}};
    uint8_t out[8];
    uint64_t at[CASTULFRISA_LISTS];
    memset(out, FILL, sizeof out);
    is(castulfrisa_join(lists, out, 6, at) == 6 && memcmp(out, "abcdef", 6) == 0 && all(out + 6, FILL, 2), "lists joined");
    is(at[0] == 2 && at[1] == 2 && at[2] == 3 && at[8] == 3 && at[9] == 6, "their ends");
    AGAIN(out);
    is(castulfrisa_join(lists, out, 5, at) == 6 && all(out + 5, FILL, 3), "lists that do not fit, and nothing behind");
    is(castulfrisa_join(lists, NULL, 0, at) == 6, "lists that have no place at all");
}

/* What the joined lists are answered: 4, no count, this list named, out as it was. */
static void named(uint64_t bad_list, const char *what)
{
    uint8_t out[CASTULFRISA_KEXINIT_MOST];
    LEND(castulfrisa_proposed, w);
    memset(out, FILL, sizeof out);
    is(write_joined(out, sizeof out, 1, &w.told) == CASTULFRISA_BAD_INPUT && KEPT(w) && all(out, FILL, sizeof out), what);
    is(w.told.count == 0 && w.told.bad_list == bad_list, what);
}

static void bad_lists(void)
{
    static const char *const bad[] = {",", "a,", "a b", "a,,b", "nnnnnnnnnnnnnnnnnnnnnnnnnnnnnnnnnnnnnnnnnnnnnnnnnnnnnnnnnnnnnnnnn"};
    const char *lists[CASTULFRISA_LISTS];
    uint64_t i;
    size_t j;
    for (i = 0; i < CASTULFRISA_LISTS; i++) {
        for (j = 0; j < COUNT(bad); j++) {
            memcpy(lists, texts, sizeof lists);
            lists[i] = bad[j];
            join(lists);
            named(i + 1, "4, a bad list");
            lists[CASTULFRISA_LISTS - 1] = ",";
            join(lists);
            named(i + 1, "4, the first of two bad lists");
        }
        join(texts);
        ends[i] = joined_len + 1;
        named(i + 1, "4, an end behind the lists");
        ends[i] = UINT64_MAX;
        named(i + 1, "4, the last end there is");
        join(texts);
        if (i > 0) {
            ends[i] = ends[i - 1] - 1;
            named(i + 1, "4, an end ahead of its beginning");
        }
    }
    join(texts);
    ends[CASTULFRISA_LISTS - 1]--;
    named(0, "4, bytes behind the last list");
}

static void kexinits(void)
{
    static const uint64_t no[] = {0, 2, 255, WIDE + 1, UINT64_MAX};
    static uint8_t out[CASTULFRISA_KEXINIT_MOST];
    static char longest[CASTULFRISA_KEXINIT_MOST - 62 - 17 + 2]; /* the longest list beside plain's two, a byte more, and its end */
    const char *lists[CASTULFRISA_LISTS];
    uint64_t n;
    size_t i;
    LEND(castulfrisa_proposed, w);

    join(texts);
    is(write_joined(out, sizeof out, 1, &w.told) == 0 && w.told.count == 62 + joined_len && w.told.bad_list == 0 && KEPT(w), "KEXINIT");
    is(out[w.told.count - 5] == 1 && memcmp(out + w.told.count - 4, "\1\2\3\4", 4) == 0, "its boolean and reserved number");
    for (i = 0; i < COUNT(no); i++)
        is(write_joined(out, sizeof out, no[i], &w.told) == 0 && out[w.told.count - 5] == 0, "a no for every number but 1");

    AGAIN(out);
    AGAIN(w);
    is(write_joined(out, 62 + joined_len - 1, 1, &w.told) == CASTULFRISA_SHORT_OUTPUT && ZERO(w), "5, KEXINIT");
    for (n = CASTULFRISA_COOKIE - 1; n <= CASTULFRISA_COOKIE + 1; n += 2) {
        AGAIN(w);
        is(castulfrisa_write_kexinit(out, sizeof out, b(COOKIE "x"), n, joined, joined_len, ends, 0, 0, &w.told) == CASTULFRISA_BAD_INPUT
           && ZERO(w), "4, the cookie");
    }
    AGAIN(w);
    is(castulfrisa_write_kexinit(out, sizeof out, b(COOKIE), CASTULFRISA_COOKIE, joined, joined_len, ends, 0, WIDE, &w.told)
       == CASTULFRISA_BAD_INPUT && ZERO(w), "4, a reserved number above 32 bits");
    is(all(out, FILL, sizeof out), "4 and 5: out as it was");

    /* a total of 4,097 and of 4,096 */
    memcpy(lists, plain, sizeof lists);
    lists[2] = longest;
    for (i = 0; i < sizeof longest - 1; i++) longest[i] = i % 8 == 0 && i < sizeof longest - 4 && i > 0 ? ',' : 'a';
    join(lists);
    named(0, "4, a total of 4,097");
    longest[sizeof longest - 2] = 0;
    join(lists);
    is(write_joined(out, sizeof out, 1, &w.told) == 0 && w.told.count == CASTULFRISA_KEXINIT_MOST, "a total of 4,096");
}

/* ---- a KEXINIT's lists */

static int stays(castulfrisa_cursor a, castulfrisa_cursor c) { return a.at == c.at && a.end == c.end; }

/* Every list, name by name. */
static void all_names(const uint8_t *payload, uint64_t len)
{
    uint64_t list;
    LEND(castulfrisa_opened, o);
    LEND(castulfrisa_part, name);
    for (list = 1; list <= CASTULFRISA_LISTS; list++) {
        const char *text = texts[list - 1];
        castulfrisa_cursor stood;
        AGAIN(o);
        is(castulfrisa_open_list(payload, len, list, &o.told) == 0 && KEPT(o), "a list opened");
        is(part_is(o.told.cookie, 1, 16) && o.told.follows == 1 && o.told.reserved == RESERVED, "what stands beside it");
        is(o.told.position == 0, "no position where a list is opened");
        while (*text != 0) {
            size_t due = strcspn(text, ",");
            AGAIN(name);
            is(castulfrisa_next_name(payload, len, &o.told.cursor, &name.told) == 0 && KEPT(name) && KEPT(o), "a name");
            is(name.told.len == due && memcmp(payload + name.told.start, text, due) == 0, "its bytes");
            text += text[due] == ',' ? due + 1 : due;
        }
        stood = o.told.cursor;
        AGAIN(name);
        is(castulfrisa_next_name(payload, len, &o.told.cursor, &name.told) == 0 && ZERO(name), "the end");
        is(stays(o.told.cursor, stood), "the end: the cursor stays");
    }
}

static void opened_lists(void)
{
    static const uint64_t no_list[] = {0, 11, 255, 256 + 1, WIDE + 1, UINT64_MAX};
    static const castulfrisa_cursor strange[] = {
        {0, 0}, {0, UINT64_MAX}, {UINT64_MAX, UINT64_MAX}, {UINT64_MAX, 0}, {40, 3}, {5000, 6000}, {WIDE + 21, WIDE + 25}};
    static uint8_t payload[CASTULFRISA_KEXINIT_MOST + 1];
    uint64_t len = kexinit(payload, texts, 1), n;
    const struct { uint64_t len, list, number, position; uint8_t message; } refused[] = {
        {0, 1, CASTULFRISA_PAYLOAD_SIZE, 0, 20}, {sizeof payload, 1, CASTULFRISA_PAYLOAD_SIZE, 0, 20}, {len, 1, CASTULFRISA_MESSAGE, 0, 21},
        {len - 1, 1, CASTULFRISA_MESSAGE, 0, 21}, {len - 1, 1, CASTULFRISA_PAST_END, len - 4, 20}, {len + 1, 1, CASTULFRISA_LEFT_OVER, len, 20},
        {0, 0, CASTULFRISA_BAD_INPUT, 0, 20}, {len - 1, 0, CASTULFRISA_BAD_INPUT, 0, 20}, {len + 1, 11, CASTULFRISA_BAD_INPUT, 0, 20}};
    castulfrisa_cursor stood;
    size_t i;
    LEND(castulfrisa_opened, o);
    LEND(castulfrisa_part, name);

    payload[len - 5] = 7; /* every boolean byte but 0 is a yes */
    all_names(payload, len);

    /* refusals: all of it is 0, but a cursor that yields the end, and where the payload breaks */
    for (i = 0; i < COUNT(refused) + COUNT(no_list); i++) {
        AGAIN(o);
        if (i < COUNT(refused)) {
            payload[0] = refused[i].message;
            is(castulfrisa_open_list(payload, refused[i].len, refused[i].list, &o.told) == refused[i].number, "4, 10 to 13");
        } else
            is(castulfrisa_open_list(payload, len, no_list[i - COUNT(refused)], &o.told) == CASTULFRISA_BAD_INPUT, "4, no list");
        is(all(&o.told, 0, offsetof(castulfrisa_opened, cursor)) && KEPT(o), "4, 10 to 13: told 0");
        is(o.told.position == (i < COUNT(refused) ? refused[i].position : 0), "4, 10 to 13: the position");
        payload[0] = 20;
        stood = o.told.cursor;
        AGAIN(name);
        is(castulfrisa_next_name(payload, len, &o.told.cursor, &name.told) == 0 && ZERO(name), "a refusal's cursor yields the end");
        is(stays(o.told.cursor, stood), "and stays");
    }

    /* a bad name: the one ahead of it is yielded, then 19, again and again */
    is(castulfrisa_open_list(payload, len, CASTULFRISA_LIST_HOST_KEY, &o.told) == 0, "the list of host keys");
    payload[o.told.cursor.at + 5] = ' ';
    is(castulfrisa_next_name(payload, len, &o.told.cursor, &name.told) == 0 && name.told.len == 3, "the name ahead of a bad one");
    stood = o.told.cursor;
    for (i = 0; i < 2; i++) {
        AGAIN(name);
        is(castulfrisa_next_name(payload, len, &o.told.cursor, &name.told) == CASTULFRISA_BAD_NAME && ZERO(name), "19");
        is(stays(o.told.cursor, stood), "19: the cursor stays");
    }

    for (i = 0; i < COUNT(strange); i++) {
        castulfrisa_cursor cursor = strange[i];
        n = castulfrisa_next_name(payload, len, &cursor, &name.told);
        is(n == 0 || n == CASTULFRISA_BAD_NAME, "any cursor is answered");
        is(name.told.start <= len && name.told.len <= len - name.told.start, "with a part of the payload");
    }
}

/* ---- where a payload breaks, and the field's name */

#define FIELDS 13
static const char *const of_kexinit[FIELDS] = {
    "cookie", "kex_algorithms", "server_host_key_algorithms",
    "encryption_algorithms_client_to_server", "encryption_algorithms_server_to_client",
    "mac_algorithms_client_to_server", "mac_algorithms_server_to_client",
    "compression_algorithms_client_to_server", "compression_algorithms_server_to_client",
    "languages_client_to_server", "languages_server_to_client", "first_kex_packet_follows", "reserved"};
static const char *const of_reply[] = {"K_S", "S", "signature"};
static const char *const of_init[] = {"C"};

/* The name of every position in the first n bytes of a message. begins: where its fields do, and behind the last the message's own end. A field
   begins where those ahead of it are whole, so not behind these bytes. */
static void named_positions(const uint8_t *payload, uint64_t n, const uint64_t *begins, const char *const *fields, size_t count)
{
    static const uint64_t wide[] = {WIDE, WIDE + 1, UINT64_MAX};
    uint64_t position;
    size_t f;
    for (position = 0; position < begins[count] + 8; position++) {
        const char *due = "no field";
        for (f = 0; f <= count; f++)
            if (begins[f] == position && position <= n) due = f < count ? fields[f] : "bytes left over";
        is(strcmp(castulfrisa_field(payload, n, position), due) == 0, "a position's name");
    }
    for (f = 0; f < COUNT(wide); f++) is(strcmp(castulfrisa_field(payload, n, wide[f]), "no field") == 0, "no field at a wide position");
}

/* A KEXINIT cut everywhere, whole, and with bytes left over, opened for each of its lists and for one that it does not have. */
static void kexinit_breaks(const char *const lists[])
{
    static uint8_t payload[CASTULFRISA_KEXINIT_MOST];
    uint64_t len = kexinit(payload, lists, 1), n, list, number, begins[FIELDS + 1];
    size_t f;
    LEND(castulfrisa_opened, o);

    begins[0] = 1;
    begins[1] = 1 + CASTULFRISA_COOKIE;
    for (f = 0; f < CASTULFRISA_LISTS; f++) begins[f + 2] = begins[f + 1] + 4 + strlen(lists[f]);
    begins[12] = begins[11] + 1;
    begins[13] = begins[12] + 4;
    is(begins[FIELDS] == len, "a KEXINIT's fields");
    for (n = 0; n <= len + 2; n++) {
        for (f = 0; f < FIELDS && begins[f + 1] <= n; f++) {} /* the first that passes the end, if there is one */
        number = n == 0 ? CASTULFRISA_PAYLOAD_SIZE : f < FIELDS ? CASTULFRISA_PAST_END : n == len ? CASTULFRISA_OK : CASTULFRISA_LEFT_OVER;
        for (list = 0; list <= CASTULFRISA_LISTS; list++) {
            uint64_t answered, position;
            AGAIN(o);
            answered = castulfrisa_open_list(payload, n, list, &o.told);
            position = o.told.position;
            if (list == 0) is(answered == CASTULFRISA_BAD_INPUT && position == 0 && KEPT(o), "4, and no position");
            else is(answered == number && position == (n == 0 || n == len ? 0 : begins[f]) && KEPT(o), "a KEXINIT cut, and where it breaks");
        }
        named_positions(payload, n, begins, of_kexinit, FIELDS);
    }

    /* a length that passes the end by a byte, and one that 32 bits barely hold: what is behind it does not begin */
    for (f = 1; f <= CASTULFRISA_LISTS; f++)
        for (n = 0; n < 2; n++) {
            number = n == 0 ? len - begins[f] - 3 : WIDE - 1;
            kexinit(payload, lists, 1);
            payload[begins[f]] = (uint8_t)(number >> 24);
            payload[begins[f] + 1] = (uint8_t)(number >> 16);
            payload[begins[f] + 2] = (uint8_t)(number >> 8);
            payload[begins[f] + 3] = (uint8_t)number;
            is(castulfrisa_open_list(payload, len, f, &o.told) == CASTULFRISA_PAST_END && o.told.position == begins[f], "a list too long");
            is(strcmp(castulfrisa_field(payload, len, begins[f]), of_kexinit[f]) == 0, "its name");
            is(strcmp(castulfrisa_field(payload, len, begins[f + 1]), "no field") == 0, "nothing begins behind it");
            is(strcmp(castulfrisa_field(payload, len, len), "no field") == 0, "and nothing is left over");
        }
}

static void positions(void)
{
    static const char *const empty[CASTULFRISA_LISTS] = {"", "", "", "", "", "", "", "", "", ""};
    static const uint8_t init[] = "\x1e\0\0\0\3cccxx", reply[] = "\x1f\0\0\0\1k\0\0\0\0\0\0\0\2sixx";
    static const uint64_t of_init_at[] = {1, 8}, of_reply_at[] = {1, 6, 10, 16};
    static const uint8_t others[] = {0, 1, 19, 21, 29, 32, 255};
    uint8_t other[sizeof reply];
    uint64_t n;
    size_t i;

    kexinit_breaks(empty);
    kexinit_breaks(texts);
    for (n = 0; n <= 10; n++) named_positions(init, n, of_init_at, of_init, 1);
    for (n = 0; n <= 18; n++) named_positions(reply, n, of_reply_at, of_reply, 3);
    memcpy(other, reply, sizeof reply);
    for (i = 0; i < COUNT(others); i++) {
        other[0] = others[i];
        for (n = 0; n <= sizeof reply; n++)
            is(strcmp(castulfrisa_field(other, sizeof reply - 1, n), "no field") == 0, "no field of another message");
    }
    for (n = 0; n < 3; n++) is(strcmp(castulfrisa_field(NULL, 0, n), "no field") == 0, "no field of no bytes");
}

/* ---- the choice */

static void choices(void)
{
    static const char *const other_method[CASTULFRISA_LISTS] = {"other", "ed", "", "", "", "", "", "", "", ""};
    static const char *const other_key[CASTULFRISA_LISTS] = {"curve448-sha512", "dss", "", "", "", "", "", "", "", ""};
    /* a payload of these lists, its length and one of its bytes changed: the number that it is answered on either side */
    static const struct { const char *const *lists; int longer; size_t at; uint8_t byte; uint64_t number; } refused[] = {
        {plain, -1000, 0, 20, CASTULFRISA_PAYLOAD_SIZE}, {plain, 0, 0, 21, CASTULFRISA_MESSAGE}, {plain, -1, 0, 20, CASTULFRISA_PAST_END},
        {plain, 1, 0, 20, CASTULFRISA_LEFT_OVER}, {plain, 0, 21, ' ', CASTULFRISA_BAD_NAME},
        {other_method, 0, 0, 20, CASTULFRISA_NO_COMMON_METHOD}, {other_key, 0, 0, 20, CASTULFRISA_NO_COMMON_HOST_KEY}};
    static uint8_t client[CASTULFRISA_KEXINIT_MOST], server[CASTULFRISA_KEXINIT_MOST], other[CASTULFRISA_KEXINIT_MOST];
    uint64_t client_len = kexinit(client, texts, 1), server_len = kexinit(server, plain, 0), len;
    size_t i;
    LEND(castulfrisa_choice, c);

    is(castulfrisa_choose(client, client_len, server, server_len, &c.told) == 0 && KEPT(c), "choice");
    is(c.told.method == CASTULFRISA_CURVE448_SHA512, "the method");
    is(c.told.host_key.len == 2 && memcmp(client + c.told.host_key.start, "ed", 2) == 0, "the host key name");
    is(c.told.ignore_client == 1 && c.told.ignore_server == 0, "the client guessed wrong");
    server_len = kexinit(server, plain, 1);
    is(castulfrisa_choose(client, client_len, server, server_len, &c.told) == 0, "both guess");
    is(c.told.ignore_client == 1 && c.told.ignore_server == 1, "both guessed wrong");
    is(castulfrisa_choose(server, server_len, server, server_len, &c.told) == 0, "both guess, and the same");
    is(c.told.ignore_client == 0 && c.told.ignore_server == 0, "nobody guessed wrong");
    for (i = 0; i < COUNT(refused); i++) {
        len = kexinit(other, refused[i].lists, 0);
        len = refused[i].longer == -1000 ? 0 : len + (uint64_t)refused[i].longer;
        other[refused[i].at] = refused[i].byte;
        AGAIN(c);
        is(castulfrisa_choose(other, len, server, server_len, &c.told) == refused[i].number && ZERO(c), "a client's payload refused");
        AGAIN(c);
        is(castulfrisa_choose(client, client_len, other, len, &c.told) == refused[i].number && ZERO(c), "a server's payload refused");
    }
}

/* ---- hashes */

#define HASH CASTULFRISA_HASH_SIZE
#define DIGEST CASTULFRISA_H_SIZE
#define TOTAL 1 /* where in a hash's bytes the eight of its total begin, and the eight of what waits; no host's business */
#define WAITS 9

/* A hash and a digest, a byte more each, which no call may touch. */
static uint8_t hash[HASH + 1], digest[DIGEST + 1];
static uint8_t fed[CASTULFRISA_HASH_MOST + 1];

static const struct kind { uint64_t kind; const char *abc, *all; } kinds[] = {
    {CASTULFRISA_SHA256,
     "ba7816bf8f01cfea414140de5dae2223b00361a396177a9cb410ff61f20015ad",
     "7d917fbd2cf49ddff9ad0a8706bba32d204e92e71d2e369c5a03d6af29278c9f"},
    {CASTULFRISA_SHA384,
     "cb00753f45a35e8bb5a03d699ac65007272c32ab0eded1631a8b605a43ff5bed8086072ba1e7cc2358baeca134c825a7",
     "efec719c84acba157f057b3a8be4ab46d8d39b7f85dca15c051420621873dcdbf6b165d5061f55337fce615e1957e330"},
    {CASTULFRISA_SHA512,
     "ddaf35a193617abacc417349ae20413112e6fa4e89a97ea20a9eeee64b55d39a2192992a274fc1a836ba3c23a3feebbd454d4423643ce80e2a9ac94fa54ca49f",
     "404431b1c0eac12729b20176c61b0e1c561b6b20d2ecbb7ee1126c361943d724d7c0814a8daf5c3a2a7d3e431a0aaf58c12f96d8c3370582b777fd375c3c972f"}};

static void fresh(uint64_t kind)
{
    AGAIN(hash);
    is(castulfrisa_hash_start(hash, HASH, kind) == 0 && hash[HASH] == FILL, "a hash");
}

/* A part fed and accepted. */
static void feed(const uint8_t *part, uint64_t len)
{
    is(castulfrisa_hash_feed(hash, HASH, part, len) == 0 && hash[HASH] == FILL, "a part fed");
}

/* The digest of what was fed, zeros after it, and the hash as it was. */
static void finish(uint64_t kind)
{
    uint8_t stood[sizeof hash];
    memcpy(stood, hash, sizeof hash);
    AGAIN(digest);
    is(castulfrisa_hash_finish(hash, HASH, digest) == 0 && memcmp(hash, stood, sizeof hash) == 0, "a hash finished, which stays");
    is(all(digest + kind, 0, DIGEST - kind) && digest[DIGEST] == FILL, "zeros after the digest");
}

static int digest_is(const char *hex)
{
    size_t i;
    for (i = 0; hex[2 * i] != 0; i++)
        if ("0123456789abcdef"[digest[i] >> 4] != hex[2 * i] || "0123456789abcdef"[digest[i] & 15] != hex[2 * i + 1]) return 0;
    return 1;
}

/* What is no hash, or has another length: 4 for every part and for the digest, which becomes zeros; the bytes stay. */
static void no_hash(uint64_t len, const char *what)
{
    uint8_t stood[sizeof hash];
    memcpy(stood, hash, sizeof hash);
    is(castulfrisa_hash_feed(hash, len, NULL, 0) == CASTULFRISA_BAD_INPUT, what);
    is(castulfrisa_hash_feed(hash, len, fed, 1) == CASTULFRISA_BAD_INPUT, what);
    is(castulfrisa_hash_feed(hash, len, fed, sizeof fed) == CASTULFRISA_BAD_INPUT, what);
    AGAIN(digest);
    is(castulfrisa_hash_finish(hash, len, digest) == CASTULFRISA_BAD_INPUT && all(digest, 0, DIGEST) && digest[DIGEST] == FILL, what);
    is(memcmp(hash, stood, sizeof hash) == 0, "4: the bytes stay");
}

/* The message of len bytes, whole and in two parts: the same hash. */
static void in_parts(uint64_t kind, uint64_t len)
{
    uint8_t whole[HASH];
    uint64_t cut;
    fresh(kind);
    feed(fed, len);
    memcpy(whole, hash, HASH);
    for (cut = 0; cut <= len; cut += 31) {
        fresh(kind);
        feed(fed, cut);
        feed(NULL, 0);
        feed(fed + cut, len - cut);
        is(memcmp(hash, whole, HASH) == 0, "two parts are the two joined");
    }
}

static void digests(const struct kind *k)
{
    uint8_t chain[sizeof hash];
    uint64_t len;
    size_t i;
    fresh(k->kind);
    memcpy(chain, hash, sizeof hash);
    feed(b("ab"), 2);
    feed(b("c"), 1);
    finish(k->kind);
    is(digest_is(k->abc), "the digest of abc");
    /* the digests of messages of 0 to 300 bytes, hashed one behind another: every tail that there is, twice */
    for (i = 0; i < 300; i++) fed[i] = (uint8_t)(7 * i + 3);
    for (len = 0; len <= 300; len++) {
        in_parts(k->kind, len);
        finish(k->kind);
        memcpy(hash, chain, sizeof hash);
        feed(digest, k->kind);
        memcpy(chain, hash, sizeof hash);
    }
    finish(k->kind);
    is(digest_is(k->all), "the digest of the digests of 301 messages");
}

/* 65,535, 65,536 and 65,537 bytes in all. */
static void hash_most(uint64_t kind)
{
    uint8_t most[HASH];
    fresh(kind);
    memcpy(most, hash, HASH);
    is(castulfrisa_hash_feed(hash, HASH, fed, sizeof fed) == CASTULFRISA_BAD_INPUT && memcmp(hash, most, HASH) == 0, "4, 65,537 at once");
    feed(fed, CASTULFRISA_HASH_MOST - 1);
    memcpy(most, hash, HASH);
    is(castulfrisa_hash_feed(hash, HASH, fed, 2) == CASTULFRISA_BAD_INPUT && memcmp(hash, most, HASH) == 0, "4, 65,535 and 2");
    feed(fed, 1);
    memcpy(most, hash, HASH);
    feed(NULL, 0);
    is(castulfrisa_hash_feed(hash, HASH, fed, 1) == CASTULFRISA_BAD_INPUT && memcmp(hash, most, HASH) == 0, "4, 65,536 and 1");
    finish(kind);
}

static void no_hashes(const struct kind *k)
{
    static const uint8_t none[] = {0, 1, 31, 33, 47, 49, 63, 65, 128, 255};
    uint8_t good[HASH], of_good[DIGEST];
    size_t i;
    fresh(k->kind);
    feed(fed, 100);
    memcpy(good, hash, HASH);
    no_hash(HASH - 1, "4, a hash of 208 bytes");
    no_hash(HASH + 1, "4, a hash of 210 bytes");
    no_hash(0, "4, a hash of no bytes");
    for (i = 0; i < COUNT(none); i++) {
        hash[0] = none[i];
        no_hash(HASH, "4, no kind");
    }
    memcpy(hash, good, HASH);
    finish(k->kind);
    memcpy(of_good, digest, DIGEST);
    for (i = TOTAL; i < WAITS + 8; i++) {
        hash[i] ^= 1;
        if (i == TOTAL + 6) finish(k->kind); /* a total moved by 256 is moved by whole blocks, and fits */
        else no_hash(HASH, "4, a total or a number of waiting bytes that does not fit");
        is(i != TOTAL + 6 || memcmp(digest, of_good, DIGEST) != 0, "the recorded total is in the digest");
        hash[i] ^= 1;
    }
    finish(k->kind);
    is(memcmp(digest, of_good, DIGEST) == 0, "the same digest again");
    castulfrisa_wipe(hash, HASH);
    no_hash(HASH, "4, a wiped hash");
}

static void hashes(void)
{
    static const uint64_t none[] = {0, 1, 31, 33, 47, 63, 65, 255, 256 + 32, WIDE, WIDE + 32, WIDE + 48, WIDE + 64, UINT64_MAX};
    size_t i;
    for (i = 0; i < COUNT(kinds); i++) {
        digests(&kinds[i]);
        hash_most(kinds[i].kind);
        no_hashes(&kinds[i]);
    }
    /* no kind: what stands there then is none; another length: the bytes stay */
    for (i = 0; i < COUNT(none); i++) {
        AGAIN(hash);
        is(castulfrisa_hash_start(hash, HASH, none[i]) == CASTULFRISA_BAD_INPUT && all(hash, 0, HASH) && hash[HASH] == FILL, "4, no kind");
        no_hash(HASH, "4, a hash of no kind");
        AGAIN(hash);
        is(castulfrisa_hash_start(hash, HASH - 1, none[i]) == CASTULFRISA_BAD_INPUT && all(hash, FILL, sizeof hash), "4, no kind in 208");
    }
    AGAIN(hash);
    is(castulfrisa_hash_start(hash, HASH - 1, CASTULFRISA_SHA256) == CASTULFRISA_BAD_INPUT, "4, a start in 208 bytes");
    is(castulfrisa_hash_start(hash, HASH + 1, CASTULFRISA_SHA256) == CASTULFRISA_BAD_INPUT, "4, a start in 210 bytes");
    is(castulfrisa_hash_start(NULL, 0, CASTULFRISA_SHA256) == CASTULFRISA_BAD_INPUT && all(hash, FILL, sizeof hash), "4, a start in none");
}

/* ---- sentences */

static void sentences(void)
{
    static const uint64_t numbers[] = {0, 1, 2, 3, 4, 5, 10, 11, 12, 13, 14, 15, 16, 17, 18, 19, 20, 21, 22, 23};
    const char *other = castulfrisa_text(6);
    size_t i, j;
    uint64_t n;
    for (i = 0; i < COUNT(numbers); i++) {
        const char *text = castulfrisa_text(numbers[i]);
        is(strlen(text) > 0 && strcmp(text, other) != 0, "a sentence");
        for (j = 0; j < i; j++) is(strcmp(text, castulfrisa_text(numbers[j])) != 0, "a sentence of its own");
    }
    for (n = 0; n < 300; n++) {
        for (i = 0; i < COUNT(numbers) && numbers[i] != n; i++) {}
        is(i < COUNT(numbers) || strcmp(castulfrisa_text(n), other) == 0, "the sentence of numbers that are none");
    }
    is(strlen(other) > 0 && strcmp(castulfrisa_text(WIDE), other) == 0, "the sentence of a wide number");
}

int main(int argc, char **argv)
{
    int status = helped(argc, argv, help);
    if (status >= 0) return status;
    is(castulfrisa_version() == CASTULFRISA_VERSION, "header and archive are of one day");
    strings();
    mpints();
    longest_bodies();
    methods();
    joins();
    kexinits();
    bad_lists();
    opened_lists();
    positions();
    choices();
    hashes();
    sentences();
    exchanges();
    puts(failed ? "failed" : "ok");
    return failed;
}
