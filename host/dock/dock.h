/* dock: one SSH connection over a socket, as client or as server: its first key exchange, those that follow it, and a service behind them. The core
   (castulfrisa.h) reads and writes the messages, builds the hash input, hashes it and derives the keys; libcrypto does curves, KEMs, signatures,
   ciphers and MACs; here are the sockets, packets and files around them. */
#ifndef DOCK_H
#define DOCK_H

#define _POSIX_C_SOURCE 200809L

#include "castulfrisa.h"
#include <openssl/evp.h>
#include <stdbool.h>
#include <stddef.h>
#include <stdint.h>
#include <stdio.h>

typedef struct { const uint8_t *at; size_t len; } span; /* bytes that someone else keeps */

/* RFC 4250, 4.1.2: every number that is recognized here; all others are answered with UNIMPLEMENTED */
enum message {
    MESSAGE_DISCONNECT = 1,
    MESSAGE_IGNORE = 2,
    MESSAGE_UNIMPLEMENTED = 3,
    MESSAGE_DEBUG = 4,
    MESSAGE_SERVICE_REQUEST = 5,
    MESSAGE_SERVICE_ACCEPT = 6,
    MESSAGE_KEXINIT = 20,
    MESSAGE_NEWKEYS = 21,
    MESSAGES_OF_METHOD = 30,    /* from here on those of the exchange's method, which the core judges, */
    MESSAGES_OF_TRANSPORT = 50, /* up to here, where the transport's end */
    USERAUTH_REQUEST = 50,
    USERAUTH_FAILURE = 51,
    USERAUTH_SUCCESS = 52,
    USERAUTH_BANNER = 53,
    GLOBAL_REQUEST = 80,
    REQUEST_SUCCESS = 81,
    REQUEST_FAILURE = 82,
    CHANNEL_OPEN = 90,
    CHANNEL_OPEN_CONFIRMATION = 91,
    CHANNEL_OPEN_FAILURE = 92,
    CHANNEL_WINDOW_ADJUST = 93,
    CHANNEL_DATA = 94,
    CHANNEL_EXTENDED_DATA = 95,
    CHANNEL_EOF = 96,
    CHANNEL_CLOSE = 97,
    CHANNEL_REQUEST = 98,
    CHANNEL_SUCCESS = 99,
    CHANNEL_FAILURE = 100
};

/* RFC 4250, 4.2.2: the reasons of a DISCONNECT that goes out */
enum reason {
    REASON_PROTOCOL_ERROR = 2,      /* a sealed packet that is whole and not due */
    REASON_KEY_EXCHANGE_FAILED = 3, /* all faults up to the peer's NEWKEYS, and again from its next KEXINIT on */
    REASON_MAC_ERROR = 5,           /* a sealed packet that was changed, or lost its place */
    REASON_NO_SERVICE = 7,
    REASON_BY_APPLICATION = 11 /* no fault: dock goes no further */
};

/* ---- report.c: what is printed */

/* One line on standard error, whatever bytes the text holds. Always false, so that a caller can return it. */
bool trouble(const char *format, ...);

/* With on, a line of --show: direction ("->", "<-" or ""), what, and each of length, number and room unless it is -1. */
void show(bool on, const char *direction, const char *what, long length, int number, long room);

/* With on, words of the peer's, of which no byte acts on a terminal. */
void show_words(bool on, span words);

/* "name hex", a line of standard output. */
void print_hex(const char *name, const uint8_t *bytes, size_t len);

/* ---- seal.c: packets behind NEWKEYS, encrypted and with a MAC, each direction by itself */

#define SEAL_BLOCK 16    /* of AES, and so the length of its first counter */
#define SEAL_KEY_MOST 32 /* of a cipher */
#define SEAL_TAG_MOST 64 /* of a MAC, and of its key, which is as long */

struct cipher {
    const char *name;
    const char *algorithm; /* libcrypto's name for it */
    size_t key_len;
};

struct mac {
    const char *name;
    const char *digest;
    size_t tag_len;
    bool over_ciphertext; /* encrypt-then-MAC: the packet's length stays in the clear, and is under the MAC */
};

struct seal_keys { uint8_t iv[SEAL_BLOCK], cipher[SEAL_KEY_MOST], mac[SEAL_TAG_MOST]; };

struct suite {
    const struct cipher *cipher; /* as chosen */
    const struct mac *mac;
    EVP_CIPHER_CTX *crypt; /* these two keep the keys; NULL until there are any */
    EVP_MAC_CTX *tag;
};

struct seal {
    struct suite now, next; /* the next one waits for NEWKEYS */
    bool on;                /* NEWKEYS has gone by: what follows is sealed */
    uint32_t sequence;      /* number of the next packet, sealed or not; it goes on over NEWKEYS, but in a strict key exchange */
    uint32_t packets;       /* under the keys of now */
};

const struct cipher *cipher_named(span name);
const struct mac *mac_named(span name);

/* Takes the keys of the next suite, which stay the caller's to wipe; the present one seals on. */
bool seal_take_keys(struct seal *s, const struct seal_keys *keys);

/* Behind NEWKEYS: the next suite, and libcrypto wipes the keys of the one before it. In a strict key exchange packets are counted anew. */
void seal_begin(struct seal *s, bool strict);

/* What a packet's length counts towards the block: with the four bytes that it stands in where those are encrypted or nothing is. */
size_t seal_aligned(const struct seal *s, size_t length);
size_t seal_block(const struct seal *s);
size_t seal_tag_len(const struct seal *s);

/* How many bytes must be there before a packet's length can be read, and that reading's decryption, once for each packet. */
size_t seal_ahead(const struct seal *s);
bool seal_show_length(struct seal *s, uint8_t *packet);

/* A packet of len bytes, in place, with its tag behind it. Opening: false, and nothing of it is to be looked at, unless the MAC holds. */
bool seal_close_packet(struct seal *s, uint8_t *packet, size_t len);
bool seal_open_packet(struct seal *s, uint8_t *packet, size_t len);

/* libcrypto wipes the keys. */
void seal_end(struct seal *s);

/* ---- link.c: one connection, its version lines and its packets */

#define PACKET_MOST 35000 /* RFC 4253, 6.1: all of it, with the MAC */
#define ASIDE_MOST 8192   /* bytes of messages that are set aside within an exchange, four more for each */
#define LISTEN_AT "127.0.0.1"

struct link {
    int fd;
    int timeout; /* seconds that a connection may take */
    long long deadline;
    bool show;
    bool strict; /* both sides named strict key exchange: up to the first NEWKEYS no packet is passed over, and each begins the count anew */
    bool exchanging; /* the peer's KEXINIT came, or is the first, and its NEWKEYS did not: faults are the exchange's */
    bool held;       /* own KEXINIT is out and own NEWKEYS is not: no data may go out */
    uint32_t kexinit;     /* number of own KEXINIT's packet */
    bool may_leave, left; /* the peer may disconnect by application, which is no failure; and it did */
    bool silent;     /* DISCONNECT went out: nothing more may */
    struct seal coming, going;
    uint8_t aside[ASIDE_MOST];     /* strings: what came from the peer's later KEXINIT to its NEWKEYS, and is no exchange's */
    size_t aside_begin, aside_end; /* of them those that are still to be taken */
    uint8_t in[PACKET_MOST];
    size_t begin, end; /* what has come in and is not used up */
    size_t packet;     /* length of the packet that the last payload is a part of, its tag included */
};

bool link_connect(struct link *l, const char *host, const char *port, int timeout);
/* Whether it is an address of IPv4 or IPv6, in numbers. */
bool link_is_address(const char *text);
bool link_listen(int *listener, const char *address, uint16_t *port);
bool link_accept(struct link *l, int listener, int timeout);

/* The time that the connection may take begins anew. */
void link_restart_clock(struct link *l);

bool link_send_version(struct link *l, const char *v);

/* The peer's version line without its end. A server may send other lines ahead of it, a client may not. */
bool link_read_version(struct link *l, bool from_server, uint8_t v[CASTULFRISA_V_MOST], size_t *v_len);

bool link_send(struct link *l, const uint8_t *payload, size_t len);

/* The next message that is for somebody here, until the next call: IGNORE, DEBUG and UNIMPLEMENTED are passed over, a number that nobody knows is
   answered with UNIMPLEMENTED, and what is no exchange's and comes within a later one waits for its end. DISCONNECT is a failure. */
bool link_receive(struct link *l, span *payload);

/* The next one that waited; false: there is none. link_receive has them first. */
bool link_take_aside(struct link *l, span *payload);

/* DISCONNECT, after which nothing more goes out; sealed behind own NEWKEYS, as all else. */
void link_disconnect(struct link *l, enum reason reason, const char *text);

/* Like trouble, and tells the peer by DISCONNECT. */
bool peer_fault(struct link *l, const char *format, ...);

void link_close(struct link *l);

/* ---- primitives.c: ephemeral keys, X and K_PQ */

/* Methods 7 to 9 where libcrypto has their KEM. */
bool makes_method(uint64_t method);

/* A new key pair; its public value as it goes on the wire, whose length the core judges. */
bool draw_ephemeral(uint64_t method, EVP_PKEY **own, uint8_t *out, size_t room, size_t *len);

/* The peer's public value; NULL for one that is no point of the curve. */
EVP_PKEY *peer_public(EVP_PKEY *own, span value);

/* X, and how many bytes of it the primitive gave, which the core judges; false where it fails. */
bool derive_x(EVP_PKEY *own, EVP_PKEY *peer, uint8_t x[CASTULFRISA_X_MOST], size_t *x_count);

/* The KEM of methods 7 to 9: a client's key pair, likewise; a server's ciphertext for a client's key, of just so many bytes; and K_PQ, with how
   many bytes of it there are, which the core judges. False where it fails. */
bool draw_kem(uint64_t method, EVP_PKEY **own, uint8_t *out, size_t room, size_t *len);
bool encapsulate(uint64_t method, span key, uint8_t *out, size_t room, uint8_t k_pq[CASTULFRISA_K_PQ_SIZE], size_t *k_pq_len);
bool decapsulate(EVP_PKEY *own, span ciphertext, uint8_t k_pq[CASTULFRISA_K_PQ_SIZE], size_t *k_pq_len);

/* Clears the stack below the caller as deep as libcrypto may have gone with X, K_PQ and the keys, which castulfrisa_wipe_stack does not know. */
void wipe_stack(void);

/* ---- hostkey.c: host keys and their signatures over H */

enum key_kind { KEY_ED25519, KEY_ECDSA, KEY_RSA };

struct scheme {
    const char *name;     /* in the host key lists and in the signature */
    const char *key_type; /* in the host key blob */
    enum key_kind kind;
    const char *curve;  /* in the blob of an ECDSA key */
    const char *group;  /* libcrypto's name for it */
    const char *digest; /* none for Ed25519, which has its own */
};

extern const struct scheme schemes[];
extern const size_t scheme_count;

struct host_key {
    EVP_PKEY *key;
    const char *type;
    uint8_t blob[CASTULFRISA_BLOB_MOST];
    size_t blob_len;
};

const struct scheme *scheme_named(const uint8_t *name, size_t len);

span text_span(const char *text);
bool span_is(span s, const char *text);

span part_of(span whole, castulfrisa_part p);

/* Parts of a blob, taken from its front. */
bool take_string(span *rest, span *body);
bool take_positive(span *rest, span *body); /* an mpint above 0 */
bool take_number(span *rest, uint32_t *n);
bool take_yes(span *rest, bool *yes);

/* A blob, or a payload, put together from its front; what does not fit is left out and told. */
struct blob { uint8_t *at; size_t room, len; bool short_of_room; };
void put_byte(struct blob *b, uint8_t byte);
void put_number(struct blob *b, uint32_t n);
void put_string(struct blob *b, const void *bytes, size_t len);
void put_text(struct blob *b, const char *text);

/* Keys from their parts; with an empty d, or seed, a public one. NULL where libcrypto refuses. */
EVP_PKEY *ed25519_key(span public_key, span seed);
EVP_PKEY *ecdsa_key(const char *group, span point, span d);
EVP_PKEY *rsa_key(span n, span e, span d);

/* Whether a blob has the form of the scheme's keys. */
bool is_host_key(const struct scheme *s, span blob);

/* Only for a key of the scheme's type, and a signature by the scheme's name. */
bool signature_holds(const struct scheme *s, span host_key, span signature, const uint8_t *h, size_t h_len);
bool sign_hash(const struct host_key *k, const struct scheme *s, const uint8_t *h, size_t h_len, uint8_t *out, size_t *out_len);

/* Fills type and blob from the key; false for a key of no type above. */
bool describe_host_key(struct host_key *k);

/* ---- keyfile.c: private host keys */

/* A private key in PEM or in OpenSSH's own form, without a passphrase. */
bool load_host_key(const char *path, struct host_key *k);

/* ---- known.c: known hosts and fingerprints */

#define FINGERPRINT 64

/* The keys of the lines that speak for one host. */
struct known_key { uint8_t *blob; size_t len; bool revoked; };
struct known_hosts { struct known_key *keys; size_t count; };

/* Reads a file of known hosts, and tells of lines that are not used, all in one line on standard error; false where it cannot be read. */
bool known_read(struct known_hosts *known, const char *path, const char *host, const char *port);
void known_end(struct known_hosts *known);

enum known { KNOWN_NOT_CHECKED, KNOWN_YES, KNOWN_MISSING, KNOWN_DIFFERS, KNOWN_REVOKED };

enum known known_host(const struct known_hosts *known, span host_key);

/* Whether there is a key of that type which is not revoked. */
bool known_type(const struct known_hosts *known, const char *type);

/* "SHA256:" and the base64 of the digest, as ssh-keygen -l prints it. */
bool fingerprint(span host_key, char out[FINGERPRINT]);

/* ---- kex.c: the exchanges of one connection */

struct kex;
struct settings;
struct link *kex_link(struct kex *k);

/* The next message that is no exchange's. Where the peer asks for an exchange, it is made first. */
bool kex_receive(struct kex *k, span *payload);

/* Asks for an exchange and makes it. What is under way, up to the peer's KEXINIT, is taken by `take`, which sends no data. */
bool kex_ask(struct kex *k, bool (*take)(void *of, span payload), void *of);

/* How many later exchanges were asked for by us, or by the peer alone, and are complete; and how many messages came between KEXINITs. */
struct asked { long own, peer, between; };
struct asked kex_asked(const struct kex *k);

/* The session identifier: H of the first exchange. */
span kex_identifier(const struct kex *k);

/* ---- service.c: the first service behind NEWKEYS */

bool ask_service(struct kex *k);
bool grant_service(struct kex *k);

/* So many exchanges, where nothing else is to follow. */
bool rekey_behind_service(struct kex *k, long rekeyings);

/* ---- session.c: behind the service a login and one channel, on which data go there and back */

bool session_as_client(struct kex *k, const struct settings *set);
bool session_as_server(struct kex *k, const struct settings *set);

/* ---- what is asked for on the command line */

#define HOST_KEYS_MOST 8
#define X_BEGINS_MOST 2

enum direction { TO_SERVER, TO_CLIENT };

struct settings {
    const char *methods;   /* name-lists for the own KEXINIT */
    const char *turns;     /* of the later exchanges each offers one of these alone, in turn; NULL: they offer the methods, too */
    const char *host_keys; /* a server's come from its keys; a client's begin with those of the types that it knows, where none are asked for */
    span ciphers[2], macs[2]; /* by direction */
    bool not_strict;          /* strict key exchange is not offered */
    bool no_service;          /* NEWKEYS is the end */
    long rekeyings;           /* to ask for */
    bool show;
    bool show_x; /* for tests: the first bytes of X, which are a secret, are printed */
    int timeout;

    const char *host, *port;               /* client */
    const struct known_hosts *known_hosts; /* NULL: the host key is not checked, */
    bool insecure;                         /* and taken all the same */
    const char *user;        /* to log in as; NULL: the service is the end */
    const struct host_key *login_key;
    long peer_rekeyings; /* data flow until the peer has asked for so many */

    const struct host_key *keys; /* server */
    size_t key_count;
    bool echo; /* anybody is let in, and a channel brings everything back; else the service is the end */
    uint8_t x_begins[X_BEGINS_MOST]; /* the ephemeral key is drawn until X begins so */
    size_t x_begins_len;
};

/* One connection; the results on standard output, or false after a line on standard error. */
bool connect_as_client(const struct settings *set);
bool connect_as_server(const struct settings *set, int listener);

#endif
