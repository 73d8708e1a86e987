/* A client and a server complete an exchange in one process, derive a
   key, and begin again, as a rekeying does. Buffers stand for the
   network, and what a host's own library computes is made up: public
   values, X, host key and signature. host/example.c, among the
   documents, is the whole of it, on OpenSSL's libcrypto. */
#include <castulfrisa.h>
#include <stdio.h>
#include <stdlib.h>
#include <string.h>

#define TEXT(s) (const uint8_t *)(s), sizeof(s) - 1
#define METHOD "curve25519-sha256"
#define V_C "SSH-2.0-client"
#define V_S "SSH-2.0-server"
#define VERSIONS (4 + sizeof V_C - 1 + 4 + sizeof V_S - 1)

struct side {
    uint8_t exchange[CASTULFRISA_EXCHANGE], room[CASTULFRISA_ROOM];
    uint8_t h[CASTULFRISA_H_SIZE], k[CASTULFRISA_K], key[32];
};
#define SIDE(a) \
    (a)->exchange, sizeof (a)->exchange, (a)->room, sizeof (a)->room

struct payload { uint8_t at[CASTULFRISA_REPLY]; uint64_t len; };

static struct side client, server;

static void wipe(void)
{
    castulfrisa_wipe((uint8_t *)&client, sizeof client);
    castulfrisa_wipe((uint8_t *)&server, sizeof server);
}

/* Every number is looked at; a host sends DISCONNECT on 10 to 21. */
static void ok(const char *call, uint64_t number)
{
    if (number == CASTULFRISA_OK) return;
    fprintf(stderr, "%s: %u, %s\n", call, (unsigned)number,
        castulfrisa_text(number));
    wipe();
    exit(1);
}

/* One side's KEXINIT; a host draws the cookie. */
static void propose(struct payload *out, uint8_t cookie_byte)
{
    const castulfrisa_bytes lists[CASTULFRISA_LISTS] = {
        {TEXT(METHOD)}, {TEXT("ssh-ed25519")},
        {TEXT("aes256-ctr")}, {TEXT("aes256-ctr")},
        {TEXT("hmac-sha2-256")}, {TEXT("hmac-sha2-256")},
        {TEXT("none")}, {TEXT("none")}, {NULL, 0}, {NULL, 0}};
    uint8_t cookie[CASTULFRISA_COOKIE];
    uint8_t joined[CASTULFRISA_KEXINIT_MOST];
    uint64_t ends[CASTULFRISA_LISTS], len;
    castulfrisa_proposed told;

    memset(cookie, cookie_byte, sizeof cookie);
    len = castulfrisa_join(lists, joined, sizeof joined, ends);
    ok("write_kexinit", castulfrisa_write_kexinit(out->at,
        sizeof out->at, cookie, sizeof cookie, joined, len, ends, 0, 0,
        &told));
    out->len = told.count;
}

/* From a beginning to a key on both sides. */
static void complete(uint64_t method)
{
    static const uint8_t host_key[51] = {1}, signature[83] = {2};
    static struct payload init, reply;
    uint8_t c[CASTULFRISA_VALUE_MOST], s[CASTULFRISA_VALUE_MOST];
    uint8_t x[CASTULFRISA_X_MOST];
    castulfrisa_sizes sizes;
    castulfrisa_init in_init;
    castulfrisa_reply parts;
    castulfrisa_signed counts;
    uint64_t count;

    ok("method_sizes", castulfrisa_method_sizes(method, &sizes));
    memset(c, 0xc1, sizeof c);
    memset(s, 0x51, sizeof s);
    memset(x, 0x99, sizeof x);

    /* client: its public value goes out */
    ok("own_c", castulfrisa_own_c(SIDE(&client), c, sizes.c_len,
        init.at, sizeof init.at, &init.len));

    /* server: X is made of the client's value, which stands at
       init.at + in_init.c.start, and of its own private one; then H
       is signed, the first sizes.digest_len bytes of h */
    ok("read_init", castulfrisa_read_init(SIDE(&server), init.at,
        init.len, &in_init));
    ok("take_secret", castulfrisa_take_secret(SIDE(&server), 1,
        sizes.x_len, x, sizes.x_len, CASTULFRISA_KEM_ABSENT, NULL, 0,
        host_key, sizeof host_key, s, sizes.s_len, &count, server.h));
    ok("sign", castulfrisa_sign(SIDE(&server), signature,
        sizeof signature, reply.at, sizeof reply.at, server.k,
        sizeof server.k, &counts));
    reply.len = counts.reply;

    /* client: X is made of the server's value, at reply.at +
       parts.s.start; then the signature over H is verified, and the
       host key looked up: a yes to both is a 1 and a 1 */
    ok("read_reply", castulfrisa_read_reply(SIDE(&client), reply.at,
        reply.len, &parts));
    ok("take_secret", castulfrisa_take_secret(SIDE(&client), 1,
        sizes.x_len, x, sizes.x_len, CASTULFRISA_KEM_ABSENT, NULL, 0,
        NULL, 0, NULL, 0, &count, client.h));
    ok("verdict", castulfrisa_verdict(SIDE(&client), 1, 1, client.k,
        sizeof client.k, &count));

    ok("derive", castulfrisa_derive(client.exchange,
        sizeof client.exchange, CASTULFRISA_CIPHER_KEY_C2S, 32,
        client.key, sizeof client.key));
    ok("derive", castulfrisa_derive(server.exchange,
        sizeof server.exchange, CASTULFRISA_CIPHER_KEY_C2S, 32,
        server.key, sizeof server.key));
    if (memcmp(client.h, server.h, sizeof client.h) != 0
        || memcmp(client.key, server.key, sizeof client.key) != 0) {
        fprintf(stderr, "the two sides differ\n");
        wipe();
        exit(1);
    }
    /* K, also in the rooms; the V's at their beginnings stay */
    castulfrisa_wipe(client.k, sizeof client.k);
    castulfrisa_wipe(server.k, sizeof server.k);
    castulfrisa_wipe(client.room + VERSIONS, sizeof client.room - VERSIONS);
    castulfrisa_wipe(server.room + VERSIONS, sizeof server.room - VERSIONS);
    castulfrisa_wipe_stack();
}

int main(void)
{
    static struct payload ic, is;
    castulfrisa_choice choice;
    castulfrisa_session session;
    uint8_t id[CASTULFRISA_H_SIZE];

    if (castulfrisa_version() != CASTULFRISA_VERSION) return 1;
    propose(&ic, 1);
    propose(&is, 2);
    ok("choose", castulfrisa_choose(ic.at, ic.len, is.at, is.len,
        &choice));
    ok("start", castulfrisa_start(client.exchange,
        sizeof client.exchange, CASTULFRISA_CLIENT, choice.method,
        TEXT(V_C), TEXT(V_S), ic.at, ic.len, is.at, is.len, client.room,
        sizeof client.room));
    ok("start", castulfrisa_start(server.exchange,
        sizeof server.exchange, CASTULFRISA_SERVER, choice.method,
        TEXT(V_C), TEXT(V_S), ic.at, ic.len, is.at, is.len, server.room,
        sizeof server.room));
    complete(choice.method);

    /* an hour later: new KEXINITs, and the V's stand in the room */
    propose(&ic, 3);
    propose(&is, 4);
    ok("choose", castulfrisa_choose(ic.at, ic.len, is.at, is.len,
        &choice));
    ok("again", castulfrisa_again(SIDE(&client), choice.method, ic.at,
        ic.len, is.at, is.len));
    ok("again", castulfrisa_again(SIDE(&server), choice.method, ic.at,
        ic.len, is.at, is.len));
    complete(choice.method);

    ok("session_id", castulfrisa_session_id(client.exchange,
        sizeof client.exchange, &session, id));
    printf("%u exchanges, method %u, an identifier of %u bytes\n",
        (unsigned)session.completed, (unsigned)choice.method,
        (unsigned)session.id_len);
    wipe();
    return 0;
}
