/* The exchanges of a connection, as client and as server: versions, then for each KEXINIT, the core's steps in their order, the keys, NEWKEYS (RFC
   4253, 7 to 9). */
#include "dock.h"
#include <openssl/rand.h>
#include <string.h>

#define OWN_VERSION "SSH-2.0-castulfrisa_dock"
#define STRICT_CLIENT "kex-strict-c-v00@openssh.com" /* OpenSSH's PROTOCOL, 1.10: no methods, but they stand in the list of methods */
#define STRICT_SERVER "kex-strict-s-v00@openssh.com"
#define NO_MESSAGE UINT64_MAX /* in place of a message's length */
#define NOT_CHECKED "host key NOT checked: %s %s"
#define DRAWS_MOST 1000000L /* for an X that begins as asked: one in 65,536 does, but for bytes that a method never has */

/* All that one connection knows; wiped as a whole. */
struct kex {
    const struct settings *set;
    struct link link;
    uint64_t role;

    castulfrisa_session session; /* what the core told behind the last exchange: how many there were, and the identifier */
    uint8_t id[CASTULFRISA_H_SIZE];
    struct asked asked;
    bool by_us; /* asked for the exchange that runs */

    uint8_t peer_v[CASTULFRISA_V_MOST], own_i[CASTULFRISA_KEXINIT_MOST], peer_i[CASTULFRISA_KEXINIT_MOST];
    size_t own_i_len;
    span vc, vs, ic, is; /* of those, by role */
    uint8_t host_key[CASTULFRISA_BLOB_MOST]; /* the server's in the first exchange */
    size_t host_key_len;

    uint64_t method;
    const struct scheme *scheme;
    castulfrisa_sizes sizes;
    bool drop; /* the peer guessed wrong: its next packet is not for the exchange */

    uint8_t exchange[CASTULFRISA_EXCHANGE]; /* one for the connection, here and nowhere else: no copy of it is made */
    uint8_t room[CASTULFRISA_ROOM];
    uint64_t filled; /* how far the fields fill the room, for --show */

    EVP_PKEY *own, *peer, *own_kem; /* ephemeral */
    uint8_t c[CASTULFRISA_VALUE_MOST]; /* own public value: C of a client, S of a server; of a hybrid the KEM's part first */
    size_t c_len;
    uint64_t kem; /* enum castulfrisa_kem */
    uint8_t x[CASTULFRISA_X_MOST], k_pq[CASTULFRISA_K_PQ_SIZE], k[CASTULFRISA_K], h[CASTULFRISA_H_SIZE];
    size_t x_count, k_pq_len;
    uint8_t x_begins[X_BEGINS_MOST]; /* what is printed of X, for tests that ask for it; else nothing of X is kept */
};

#define EXCHANGE(k) (k)->exchange, sizeof (k)->exchange, (k)->room, sizeof (k)->room

static struct seal *seal_towards(struct kex *k, enum direction way)
{
    return (way == TO_SERVER) == (k->role == CASTULFRISA_CLIENT) ? &k->link.going : &k->link.coming;
}

/* ---- the core's numbers */

/* 0 goes on; 1 to 5 and 23 are our own limits; all others are the peer's fault. */
static bool own_fault(struct kex *k)
{
    link_disconnect(&k->link, REASON_BY_APPLICATION, "no key exchange is possible");
    return false;
}

static bool accepted(struct kex *k, const char *what, uint64_t number)
{
    if (number == CASTULFRISA_OK) return true;
    if (number <= CASTULFRISA_SHORT_OUTPUT || number == CASTULFRISA_COUNT_FULL) {
        trouble("%s not possible (number %u: %s)", what, (unsigned)number, castulfrisa_text(number));
        return own_fault(k);
    }
    return peer_fault(&k->link, "%s refused (number %u: %s)", what, (unsigned)number, castulfrisa_text(number));
}

/* Whether a field, by castulfrisa_field's name for it, begins with length bytes. */
static bool has_length(const char *field)
{
    static const char *const without[] = {"cookie", "first_kex_packet_follows", "reserved"};
    for (size_t i = 0; i < sizeof without / sizeof without[0]; i++)
        if (strcmp(field, without[i]) == 0) return false;
    return true;
}

/* A message of the peer's. Where it breaks, the line says at which byte and in which field: who sees it does not see the message. */
static bool accepted_message(struct kex *k, const char *what, uint64_t number, span message, uint64_t position)
{
    const unsigned long at = (unsigned long)position;
    const char *text = castulfrisa_text(number);
    if (number == CASTULFRISA_LEFT_OVER)
        return peer_fault(&k->link, "%s has bytes left over from byte %lu on (number %u: %s)", what, at, (unsigned)number, text);
    if (number != CASTULFRISA_PAST_END) return accepted(k, what, number);
    const char *field = castulfrisa_field(message.at, message.len, position);
    const char *the = strcmp(field, "cookie") == 0 || strcmp(field, "signature") == 0 ? "the " : "";
    const char *part = has_length(field) && message.len < position + 4 ? "'s length" : "";
    return peer_fault(&k->link, "%s cut at byte %lu, in %s%s%s (number %u: %s)", what, at, the, field, part, (unsigned)number, text);
}

/* Shows a step, with the message that it made or read if there is one. filled: how far its fields fill the room once it is accepted. */
static uint64_t shown(struct kex *k, const char *direction, const char *what, uint64_t length, uint64_t number, uint64_t filled)
{
    if (number == CASTULFRISA_OK) k->filled = filled;
    else if (number >= CASTULFRISA_PAYLOAD_SIZE && number <= CASTULFRISA_VERDICT) k->filled = 0; /* a peer's fault: the room is zeros */
    show(k->link.show, direction, what, length == NO_MESSAGE ? -1 : (long)length, (int)number, (long)k->filled);
    return number;
}

/* ---- up to the start */

static bool exchange_versions(struct kex *k)
{
    size_t len;
    span own = text_span(OWN_VERSION);
    bool client = k->role == CASTULFRISA_CLIENT;
    if (!link_send_version(&k->link, OWN_VERSION) || !link_read_version(&k->link, client, k->peer_v, &len)) return false;
    span peer = {k->peer_v, len};
    k->vc = client ? own : peer;
    k->vs = client ? peer : own;
    return true;
}

static bool is_first(const struct kex *k) { return k->session.completed == 0; }

/* The methods to offer: all of them, or of the turns the one whose turn it is. */
static span own_methods(const struct kex *k)
{
    span list = text_span(k->set->methods);
    if (is_first(k) || k->set->turns == NULL) return list;
    uint64_t count = 1;
    for (const char *at = k->set->turns; *at != 0; at++) count += *at == ',';
    const char *at = k->set->turns;
    for (uint64_t turn = (k->session.completed - 1) % count; turn > 0; turn--) at += strcspn(at, ",") + 1;
    return (span){(const uint8_t *)at, strcspn(at, ",")};
}

/* Strict key exchange is named in the first KEXINIT alone. */
static bool send_kexinit(struct kex *k)
{
    const struct settings *set = k->set;
    const span offered = own_methods(k);
    const bool strict = is_first(k) && !set->not_strict;
    uint8_t cookie[CASTULFRISA_COOKIE], joined[CASTULFRISA_KEXINIT_MOST];
    char methods[CASTULFRISA_KEXINIT_MOST];
    castulfrisa_proposed told;
    uint64_t ends[CASTULFRISA_LISTS];

    int methods_len = snprintf(methods, sizeof methods, "%.*s%s", (int)offered.len, (const char *)offered.at,
                               !strict ? "" : k->role == CASTULFRISA_CLIENT ? "," STRICT_CLIENT : "," STRICT_SERVER);
    if (methods_len < 0 || (size_t)methods_len >= sizeof methods) return trouble("own methods are too long");
    const span none = text_span("none"), empty = text_span("");
    const span own_lists[] = {text_span(methods), text_span(set->host_keys), set->ciphers[TO_SERVER], set->ciphers[TO_CLIENT],
                              set->macs[TO_SERVER], set->macs[TO_CLIENT], none, none, empty, empty};
    castulfrisa_bytes lists[CASTULFRISA_LISTS];
    for (size_t i = 0; i < CASTULFRISA_LISTS; i++) lists[i] = (castulfrisa_bytes){own_lists[i].at, own_lists[i].len};

    uint64_t len = castulfrisa_join(lists, joined, sizeof joined, ends);
    if (len > sizeof joined) return trouble("own lists of %lu bytes are too long", (unsigned long)len);
    if (RAND_bytes(cookie, sizeof cookie) != 1) return trouble("no random bytes");
    uint64_t number = castulfrisa_write_kexinit(k->own_i, sizeof k->own_i, cookie, sizeof cookie, joined, len, ends, 0, 0, &told);
    k->own_i_len = (size_t)told.count;
    show(k->link.show, "->", "KEXINIT", (long)told.count, (int)number, -1);
    return accepted(k, "own KEXINIT", number) && link_send(&k->link, k->own_i, k->own_i_len);
}

/* ---- the choices that are not the core's */

static bool has_name(span kexinit, uint64_t list, span name)
{
    castulfrisa_opened opened;
    castulfrisa_part part;
    if (castulfrisa_open_list(kexinit.at, kexinit.len, list, &opened) != CASTULFRISA_OK) return false;
    while (castulfrisa_next_name(kexinit.at, kexinit.len, &opened.cursor, &part) == CASTULFRISA_OK && part.len > 0)
        if (part.len == name.len && memcmp(kexinit.at + part.start, name.at, name.len) == 0) return true;
    return false;
}

/* RFC 4253, 7.1: the first of the client's names that the server has too. It is one of our own then. */
static bool common_name(struct kex *k, const char *what, uint64_t list, span *name)
{
    castulfrisa_opened opened;
    castulfrisa_part part;
    if (!accepted(k, what, castulfrisa_open_list(k->ic.at, k->ic.len, list, &opened))) return false;
    do {
        if (!accepted(k, what, castulfrisa_next_name(k->ic.at, k->ic.len, &opened.cursor, &part))) return false;
        *name = part_of(k->ic, part);
        if (part.len == 0) return peer_fault(&k->link, "KEXINIT refused (the two sides have no %s in common)", what);
    } while (!has_name(k->is, list, *name));
    return true;
}

/* Cipher, MAC and no compression, for each direction. */
static bool choose_seals(struct kex *k)
{
    static const uint64_t lists[][3] = {
        [TO_SERVER] = {CASTULFRISA_LIST_CIPHER_C2S, CASTULFRISA_LIST_MAC_C2S, CASTULFRISA_LIST_COMPRESSION_C2S},
        [TO_CLIENT] = {CASTULFRISA_LIST_CIPHER_S2C, CASTULFRISA_LIST_MAC_S2C, CASTULFRISA_LIST_COMPRESSION_S2C},
    };
    for (int way = TO_SERVER; way <= TO_CLIENT; way++) {
        struct seal *s = seal_towards(k, way);
        span cipher, mac, compression;
        if (!common_name(k, "cipher", lists[way][0], &cipher) || !common_name(k, "MAC", lists[way][1], &mac)
            || !common_name(k, "compression", lists[way][2], &compression)) return false;
        s->next.cipher = cipher_named(cipher);
        s->next.mac = mac_named(mac);
        if (s->next.cipher == NULL || s->next.mac == NULL || !span_is(compression, "none")) return trouble("the choice is none of our names"), own_fault(k);
    }
    return true;
}

/* Strict where both sides name it, in the first exchange and for all that follow. Then the peer's KEXINIT must have been its first packet. */
static bool choose_strict(struct kex *k)
{
    if (!is_first(k)) return true;
    bool client = k->role == CASTULFRISA_CLIENT;
    span theirs = text_span(client ? STRICT_SERVER : STRICT_CLIENT);
    k->link.strict = !k->set->not_strict && has_name(client ? k->is : k->ic, CASTULFRISA_LIST_KEX, theirs);
    return !k->link.strict || k->link.coming.sequence == 1 || peer_fault(&k->link, "KEXINIT is not the first packet of a strict key exchange");
}

/* The choice does not tell where a KEXINIT breaks: opening it for any list does. It is the peer's, for the own one was written by the core. */
static bool accepted_choice(struct kex *k, uint64_t number, span peer)
{
    castulfrisa_opened opened;
    if (castulfrisa_open_list(peer.at, peer.len, CASTULFRISA_LIST_KEX, &opened) != number) return accepted(k, "KEXINIT", number);
    return accepted_message(k, "KEXINIT", number, peer, opened.position);
}

/* KEXINIT has gone both ways: the choice, and the exchange begun, or begun again. */
static bool negotiate(struct kex *k, span peer)
{
    bool client = k->role == CASTULFRISA_CLIENT;
    span own = {k->own_i, k->own_i_len};

    /* The choice judges the payload in the buffer that it came in, whatever its length; only an accepted one is kept. */
    k->ic = client ? own : peer;
    k->is = client ? peer : own;
    castulfrisa_choice choice;
    uint64_t number = castulfrisa_choose(k->ic.at, k->ic.len, k->is.at, k->is.len, &choice);
    show(k->link.show, "<-", "KEXINIT", (long)peer.len, (int)number, -1);
    if (!accepted_choice(k, number, peer)) return false;
    memcpy(k->peer_i, peer.at, peer.len);
    *(client ? &k->is : &k->ic) = (span){k->peer_i, peer.len};

    k->method = choice.method;
    k->scheme = scheme_named(k->ic.at + choice.host_key.start, (size_t)choice.host_key.len);
    k->drop = (client ? choice.ignore_server : choice.ignore_client) == 1;
    if (!makes_method(k->method) || k->scheme == NULL) return trouble("the choice is none of our names"), own_fault(k);
    if (!choose_seals(k) || !choose_strict(k)) return false;
    if (!accepted(k, "sizes", castulfrisa_method_sizes(k->method, &k->sizes))) return false;

    const char *what = is_first(k) ? "start" : "again";
    if (is_first(k))
        number = castulfrisa_start(k->exchange, sizeof k->exchange, k->role, k->method, k->vc.at, k->vc.len, k->vs.at, k->vs.len, k->ic.at,
                                   k->ic.len, k->is.at, k->is.len, k->room, sizeof k->room);
    else number = castulfrisa_again(EXCHANGE(k), k->method, k->ic.at, k->ic.len, k->is.at, k->is.len);
    return accepted(k, what, shown(k, "", what, NO_MESSAGE, number, 4 * 4 + k->vc.len + k->vs.len + k->ic.len + k->is.len));
}

/* The peer's message of the exchange, a wrong guess dropped; which is the method's own, or none. */
static bool receive_message(struct kex *k, span *payload)
{
    if (!link_receive(&k->link, payload)) return false;
    if (!k->drop || payload->len == 0 || payload->at[0] < MESSAGES_OF_METHOD || payload->at[0] >= MESSAGES_OF_TRANSPORT) return true;
    k->drop = false;
    show(k->link.show, "<-", "wrong guess", (long)payload->len, -1, -1);
    return link_receive(&k->link, payload);
}

/* ---- the end of both roles */

/* First counter, cipher's key and MAC's key of one direction. */
static uint64_t derive_towards(const struct kex *k, enum direction way, const struct seal *s, struct seal_keys *keys)
{
    const uint64_t letter = way == TO_SERVER ? 'A' : 'B';
    uint64_t number = castulfrisa_derive(k->exchange, sizeof k->exchange, letter, sizeof keys->iv, keys->iv, sizeof keys->iv);
    if (number == CASTULFRISA_OK)
        number = castulfrisa_derive(k->exchange, sizeof k->exchange, letter + 2, s->next.cipher->key_len, keys->cipher, sizeof keys->cipher);
    if (number == CASTULFRISA_OK)
        number = castulfrisa_derive(k->exchange, sizeof k->exchange, letter + 4, s->next.mac->tag_len, keys->mac, sizeof keys->mac);
    castulfrisa_wipe_stack();
    return number;
}

/* The six keys, from the core to where packets are sealed, and nowhere else. */
static bool derive_keys(struct kex *k)
{
    bool taken = true;
    for (int way = TO_SERVER; taken && way <= TO_CLIENT; way++) {
        struct seal *s = seal_towards(k, way);
        struct seal_keys keys;
        uint64_t number = derive_towards(k, way, s, &keys);
        show(k->link.show, "", way == TO_SERVER ? "keys to server" : "keys to client", -1, (int)number, -1);
        taken = accepted(k, "keys", number) && (seal_take_keys(s, &keys) || trouble("libcrypto does not take the keys"));
        castulfrisa_wipe((uint8_t *)&keys, sizeof keys);
    }
    wipe_stack();
    return taken;
}

/* What the keys were made of, as soon as they are there. H stays, which is no secret; and the exchange, which can begin again, with K in it until
   then, and of the room the V's, which it then takes. */
static void forget_secrets(struct kex *k)
{
    EVP_PKEY **const ephemeral[] = {&k->own, &k->peer, &k->own_kem};
    for (size_t i = 0; i < sizeof ephemeral / sizeof ephemeral[0]; i++) {
        EVP_PKEY_free(*ephemeral[i]);
        *ephemeral[i] = NULL;
    }
    if (k->set->show_x) memcpy(k->x_begins, k->x, sizeof k->x_begins);
    k->kem = CASTULFRISA_KEM_ABSENT;
    const size_t versions = 4 + k->vc.len + 4 + k->vs.len;
    castulfrisa_wipe(k->room + versions, sizeof k->room - versions);
    castulfrisa_wipe(k->x, sizeof k->x);
    castulfrisa_wipe(k->k_pq, sizeof k->k_pq);
}

static bool exchange_newkeys(struct kex *k)
{
    static const uint8_t newkeys[] = {MESSAGE_NEWKEYS};
    struct link *l = &k->link;
    span payload;
    show(l->show, "->", "NEWKEYS", sizeof newkeys, -1, -1);
    if (!link_send(l, newkeys, sizeof newkeys)) return false;
    seal_begin(&l->going, l->strict);
    if (!link_receive(l, &payload)) return false;
    if (payload.len == 0 || payload.at[0] != MESSAGE_NEWKEYS || payload.len != sizeof newkeys)
        return peer_fault(l, "message %u of %lu bytes where NEWKEYS is due", payload.len > 0 ? (unsigned)payload.at[0] : 0,
                          (unsigned long)payload.len);
    seal_begin(&l->coming, l->strict);
    l->exchanging = false;
    show(l->show, "<-", "NEWKEYS", (long)payload.len, -1, -1);
    return true;
}

static void print_first(struct kex *k, const char *print, enum known known)
{
    printf("host key %s %s\n", k->scheme->name, print);
    if (k->role == CASTULFRISA_CLIENT) printf("known %s\n", known == KNOWN_YES ? "yes" : "NOT checked");
    if (k->set->show_x) print_hex("X begins", k->x_begins, sizeof k->x_begins);
    for (int way = TO_SERVER; way <= TO_CLIENT; way++) {
        const struct suite *s = &seal_towards(k, way)->now;
        printf("%s %s %s\n", way == TO_SERVER ? "to server" : "to client", s->cipher->name, s->mac->name);
    }
    printf("strict %s\n", k->link.strict ? "yes" : "no");
    puts("NEWKEYS sent and received");
}

/* What each exchange has for itself, and the identifier, which they have in common. */
static bool print_results(struct kex *k, const char *print, enum known known)
{
    uint8_t name[CASTULFRISA_METHOD_NAME_MOST];
    uint64_t name_len;
    if (castulfrisa_method_name(k->method, name, sizeof name, &name_len) != CASTULFRISA_OK) return trouble("a method without a name");
    const bool first = k->session.completed == 1;
    if (!first) printf("again %s ", k->by_us ? "by us" : "by the peer");
    printf("method %u %.*s\n", (unsigned)k->method, (int)name_len, (const char *)name);
    print_hex("H", k->h, (size_t)k->sizes.digest_len);
    printf("exchange %lu ", (unsigned long)k->session.completed);
    print_hex("identifier", k->id, (size_t)k->session.id_len);
    if (first) print_first(k, print, known);
    return fflush(stdout) == 0 || trouble("standard output cannot be written");
}

/* From the exchange that is complete to packets under its keys. */
static bool finish(struct kex *k, const char *print, enum known known)
{
    castulfrisa_wipe(k->k, sizeof k->k); /* the keys come from the exchange */
    bool keyed = derive_keys(k);
    forget_secrets(k);
    if (!keyed || !accepted(k, "identifier", castulfrisa_session_id(k->exchange, sizeof k->exchange, &k->session, k->id))) return false;
    return exchange_newkeys(k) && print_results(k, print, known);
}

/* ---- client */

/* REPLY comes in, and K_S, S and the signature are parts of it. */
static bool read_reply(struct kex *k, span *host_key, span *s, span *signature)
{
    span reply;
    if (!receive_message(k, &reply)) return false;
    castulfrisa_reply parts;
    uint64_t number = castulfrisa_read_reply(EXCHANGE(k), reply.at, reply.len, &parts);
    *host_key = part_of(reply, parts.host_key);
    *s = part_of(reply, parts.s);
    *signature = part_of(reply, parts.signature);
    shown(k, "<-", "REPLY", reply.len, number, k->filled + 4 + parts.host_key.len + 4 + parts.s.len);
    return accepted_message(k, "REPLY", number, reply, parts.position);
}

/* Hands the core what the primitives gave, and gets H. From here on every call leaves K below it, accepted or not: it is wiped before
   anything else is done. */
static bool take_secret(struct kex *k, bool given, span host_key, span s)
{
    uint64_t count, k_pq_len = k->kem == CASTULFRISA_KEM_DONE ? k->k_pq_len : 0;
    uint64_t number = castulfrisa_take_secret(EXCHANGE(k), given, k->x_count, k->x, k->sizes.x_len, k->kem, k->k_pq, k_pq_len, host_key.at,
                                              host_key.len, s.at, s.len, &count, k->h);
    castulfrisa_wipe_stack();
    return accepted(k, "secret", shown(k, "", "secret", NO_MESSAGE, number, count));
}

/* One that was not checked is refused, unless it was asked for otherwise; what it is, a person is told, and can compare it. */
static bool refuse_host_key(struct kex *k, const char *print, bool holds, bool same, enum known known)
{
    const unsigned number = CASTULFRISA_VERDICT;
    if (holds && same && known == KNOWN_NOT_CHECKED)
        return peer_fault(&k->link, NOT_CHECKED "; compare it and give --known-hosts, or give --insecure (number %u: %s)", k->scheme->key_type, print,
                          number, castulfrisa_text(number));
    const char *why = !holds     ? "signature over H does not hold"
        : !same                  ? "is not that of the first exchange"
        : known == KNOWN_REVOKED ? "it is revoked"
        : known == KNOWN_DIFFERS ? "differs from the known one"
                                 : "not known";
    return peer_fault(&k->link, "host key %s %s: %s (number %u: %s)", k->scheme->name, print, why, number, castulfrisa_text(number));
}

/* The verdict: both answers in, K out. The line says which of the two failed. */
static bool give_verdict(struct kex *k, span host_key, span signature, const char *print, enum known *known)
{
    const struct settings *set = k->set;
    bool holds = signature_holds(k->scheme, host_key, signature, k->h, (size_t)k->sizes.digest_len);
    if (set->known_hosts != NULL) *known = known_host(set->known_hosts, host_key);
    bool same = is_first(k) || (host_key.len == k->host_key_len && memcmp(host_key.at, k->host_key, host_key.len) == 0);
    bool trusted = same && (*known == KNOWN_YES || (*known == KNOWN_NOT_CHECKED && set->insecure));

    uint64_t k_len;
    uint64_t number = castulfrisa_verdict(EXCHANGE(k), holds, trusted, k->k, sizeof k->k, &k_len);
    castulfrisa_wipe_stack();
    shown(k, "", "verdict", NO_MESSAGE, number, k->filled);
    if (number == CASTULFRISA_VERDICT) return refuse_host_key(k, print, holds, same, *known);
    if (!accepted(k, "verdict", number)) return false;
    if (is_first(k) && *known == KNOWN_NOT_CHECKED) trouble(NOT_CHECKED, k->scheme->key_type, print);
    memcpy(k->host_key, host_key.at, host_key.len); /* which the core took for no longer than a blob */
    k->host_key_len = host_key.len;
    return true;
}

/* Own C: the public value, in a hybrid behind the KEM's key. */
static bool draw_c(struct kex *k)
{
    size_t kem_len = 0, len;
    if (k->sizes.hybrid == 1 && !draw_kem(k->method, &k->own_kem, k->c, sizeof k->c, &kem_len)) return trouble("no KEM key");
    if (!draw_ephemeral(k->method, &k->own, k->c + kem_len, sizeof k->c - kem_len, &len)) return trouble("no ephemeral key");
    k->c_len = kem_len + len;
    return true;
}

/* X and K_PQ from S. */
static bool derive_from_s(struct kex *k, span s)
{
    size_t kem_len = (size_t)k->sizes.s_classical;
    if (k->sizes.hybrid == 1)
        k->kem = decapsulate(k->own_kem, (span){s.at, kem_len}, k->k_pq, &k->k_pq_len) ? CASTULFRISA_KEM_DONE : CASTULFRISA_KEM_FAILED;
    k->peer = peer_public(k->own, (span){s.at + kem_len, s.len - kem_len});
    return k->peer != NULL && derive_x(k->own, k->peer, k->x, &k->x_count);
}

static bool client(struct kex *k)
{
    uint8_t init[CASTULFRISA_INIT];
    span host_key, s, signature;
    char print[FINGERPRINT];
    enum known known = KNOWN_NOT_CHECKED;
    const span none = {NULL, 0};

    if (!draw_c(k)) return false;
    uint64_t init_len;
    uint64_t number = castulfrisa_own_c(EXCHANGE(k), k->c, k->c_len, init, sizeof init, &init_len);
    shown(k, "->", "INIT", init_len, number, k->filled + 4 + k->c_len);
    if (!accepted(k, "own C", number) || !link_send(&k->link, init, (size_t)init_len)) return false;

    if (!read_reply(k, &host_key, &s, &signature)) return false;
    bool given = derive_from_s(k, s);
    if (!take_secret(k, given, none, none)) return false;

    if (!fingerprint(host_key, print)) return trouble("no digest for the fingerprint");
    return give_verdict(k, host_key, signature, print, &known) && finish(k, print, known);
}

/* ---- server */

static const struct host_key *chosen_key(const struct kex *k)
{
    for (size_t i = 0; i < k->set->key_count; i++)
        if (strcmp(k->set->keys[i].type, k->scheme->key_type) == 0) return &k->set->keys[i];
    return NULL;
}

/* K_PQ, and the KEM's part of S, in a hybrid. Where it fails, S has zeros there: the core wants it in its form all the same. */
static void answer_kem(struct kex *k, span key)
{
    size_t len = (size_t)k->sizes.s_classical;
    if (k->sizes.hybrid != 1) return;
    k->kem = encapsulate(k->method, key, k->c, len, k->k_pq, &k->k_pq_len) ? CASTULFRISA_KEM_DONE : CASTULFRISA_KEM_FAILED;
    if (k->kem != CASTULFRISA_KEM_DONE) memset(k->c, 0, len);
}

/* Draws until X begins as asked, which is the first draw where nothing is asked. given: whether the primitive gave X. */
static bool draw_against(struct kex *k, span c, bool *given)
{
    const struct settings *set = k->set;
    size_t kem_len = (size_t)k->sizes.s_classical, len;
    for (long draws = 0; draws < DRAWS_MOST; draws++) {
        EVP_PKEY_free(k->own);
        if (!draw_ephemeral(k->method, &k->own, k->c + kem_len, sizeof k->c - kem_len, &len)) return trouble("no ephemeral key");
        k->c_len = kem_len + len;
        if (k->peer == NULL) k->peer = peer_public(k->own, c);
        *given = k->peer != NULL && derive_x(k->own, k->peer, k->x, &k->x_count);
        if (!*given || memcmp(k->x, set->x_begins, set->x_begins_len) == 0) return true;
    }
    return trouble("no X in %ld draws begins as asked", DRAWS_MOST);
}

/* INIT comes in; own S, X and K_PQ are made from its C. */
static bool read_init(struct kex *k, bool *given)
{
    span init;
    if (!receive_message(k, &init)) return false;
    castulfrisa_init told;
    uint64_t number = castulfrisa_read_init(EXCHANGE(k), init.at, init.len, &told);
    shown(k, "<-", "INIT", init.len, number, k->filled + 4 + told.c.len);
    if (!accepted_message(k, "INIT", number, init, told.position)) return false;
    span value = part_of(init, told.c);
    size_t kem_len = (size_t)k->sizes.c_classical;
    answer_kem(k, (span){value.at, kem_len});
    bool drawn = draw_against(k, (span){value.at + kem_len, value.len - kem_len}, given);
    if (k->set->x_begins_len > 0) link_restart_clock(&k->link); /* long drawing is not the peer's delay */
    return drawn;
}

static bool send_reply(struct kex *k, const struct host_key *key)
{
    uint8_t signature[CASTULFRISA_BLOB_MOST], reply[CASTULFRISA_REPLY];
    size_t signature_len;
    if (!sign_hash(key, k->scheme, k->h, (size_t)k->sizes.digest_len, signature, &signature_len)) return trouble("the host key does not sign");
    castulfrisa_signed counts;
    uint64_t number = castulfrisa_sign(EXCHANGE(k), signature, signature_len, reply, sizeof reply, k->k, sizeof k->k, &counts);
    castulfrisa_wipe_stack();
    shown(k, "->", "REPLY", counts.reply, number, k->filled);
    return accepted(k, "own signature", number) && link_send(&k->link, reply, (size_t)counts.reply);
}

static bool server(struct kex *k)
{
    char print[FINGERPRINT];
    bool given;
    const struct host_key *key = chosen_key(k);
    if (key == NULL) return trouble("no host key for %s", k->scheme->name);
    const span host_key = {key->blob, key->blob_len};
    if (!fingerprint(host_key, print)) return trouble("no digest for the fingerprint");

    return read_init(k, &given) && take_secret(k, given, host_key, (span){k->c, k->c_len}) && send_reply(k, key)
        && finish(k, print, KNOWN_NOT_CHECKED);
}

/* ---- the first exchange and all others */

/* From the peer's KEXINIT, with the own one out, to packets under new keys. */
static bool exchange(struct kex *k, span peer, bool by_us)
{
    k->link.exchanging = true;
    k->by_us = by_us;
    return negotiate(k, peer) && (k->role == CASTULFRISA_CLIENT ? client(k) : server(k));
}

static bool first_exchange(struct kex *k)
{
    span peer;
    k->link.exchanging = true;
    return exchange_versions(k) && send_kexinit(k) && link_receive(&k->link, &peer) && exchange(k, peer, true);
}

struct link *kex_link(struct kex *k) { return &k->link; }

struct asked kex_asked(const struct kex *k) { return k->asked; }

span kex_identifier(const struct kex *k) { return (span){k->id, (size_t)k->session.id_len}; }

static bool is_kexinit(span payload) { return payload.len > 0 && payload.at[0] == MESSAGE_KEXINIT; }

bool kex_receive(struct kex *k, span *payload)
{
    while (link_receive(&k->link, payload)) {
        if (!is_kexinit(*payload)) return true;
        if (!send_kexinit(k) || !exchange(k, *payload, false)) return false;
        k->asked.peer++;
    }
    return false;
}

bool kex_ask(struct kex *k, bool (*take)(void *of, span payload), void *of)
{
    span payload;
    if (!send_kexinit(k)) return false;
    while (link_receive(&k->link, &payload)) {
        if (is_kexinit(payload)) {
            if (!exchange(k, payload, true)) return false;
            k->asked.own++;
            while (link_take_aside(&k->link, &payload))
                if (!take(of, payload)) return false;
            return true;
        }
        if (!take(of, payload)) return false;
        k->asked.between++;
    }
    return false;
}

/* ---- one connection of either role, wiped behind it */

static void kex_end(struct kex *k)
{
    EVP_PKEY_free(k->own);
    EVP_PKEY_free(k->peer);
    EVP_PKEY_free(k->own_kem);
    link_close(&k->link);
    castulfrisa_wipe((uint8_t *)k, sizeof *k);
}

/* Where data are to flow, the exchanges asked for come between them: OpenSSH makes none between the first and the login. */
static bool talk_as_client(struct kex *k)
{
    const struct settings *set = k->set;
    if (set->no_service) return true;
    if (!ask_service(k)) return false;
    if (set->user != NULL) return session_as_client(k, set);
    if (!rekey_behind_service(k, set->rekeyings)) return false;
    link_disconnect(&k->link, REASON_BY_APPLICATION, "the service was accepted, and that was all");
    return true;
}

static bool talk_as_server(struct kex *k)
{
    const struct settings *set = k->set;
    if (set->no_service) return true;
    if (!grant_service(k)) return false;
    if (set->echo) return session_as_server(k, set);
    if (!rekey_behind_service(k, set->rekeyings)) return false;
    link_disconnect(&k->link, REASON_BY_APPLICATION, "the service is accepted, and that is all");
    return true;
}

bool connect_as_client(const struct settings *set)
{
    struct kex k = {.set = set, .role = CASTULFRISA_CLIENT};
    bool done = link_connect(&k.link, set->host, set->port, set->timeout);
    k.link.show = set->show;
    done = done && first_exchange(&k) && talk_as_client(&k);
    kex_end(&k);
    return done;
}

bool connect_as_server(const struct settings *set, int listener)
{
    struct kex k = {.set = set, .role = CASTULFRISA_SERVER};
    bool done = link_accept(&k.link, listener, set->timeout);
    k.link.show = set->show;
    done = done && first_exchange(&k) && talk_as_server(&k);
    kex_end(&k);
    return done;
}
