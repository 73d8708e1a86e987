/* castulfrisa: the key-exchange core of SSH, as one static library: libcastulfrisa.a for speed, or libcastulfrisa-small.a for size. C99 and
   C++, 32 and 64 bits.

   It reads and writes the messages, negotiates, encodes the shared secret, builds the hash input, hashes it and derives the keys. Random numbers,
   curve and KEM primitives, signatures and known-host lists are the host's; so are memcpy, memmove and memset, which the library calls. It keeps
   nothing: no memory, no pointer, no state. It takes any bytes and any call at any time, and every call ends.

   WHAT CROSSES
   - Buffers as a pointer and a 64-bit length in bytes, 64-bit numbers, pointers to 64-bit numbers that the call fills in, and to the 64
     bytes of H, of a digest or of the session identifier; nothing else, so that one library serves every calling convention. The structs
     below are runs of 64-bit numbers and cross as a pointer. On 32 bits a length is a 64-bit number too, wider than size_t: the prototypes
     convert what is handed in, and a size_t takes what is told.
   - A buffer's length of 0 takes any pointer, also NULL. A pointer to numbers is never NULL, and stands at a multiple of 8; one to H, to a
     digest or to the session identifier is never NULL.
   - Every buffer stays the caller's. `const` buffers are read and never written. What is written, buffer or numbers, shares no byte with
     anything else of the same call; and while a call runs, nobody else writes what it was lent or reads what it writes.
   - An output is written from its first byte on. Bytes past those that are counted, or of a key asked for, stay as they were; but the output
     for K gets all CASTULFRISA_K bytes, zeros after K.
   - H, a digest and the session identifier have CASTULFRISA_H_SIZE bytes, which every answer writes: zeros after the digest, all zeros on a
     refusal. The identifier is told as the exchange has it: zeros after the digest in every exchange that the library made.

   ANSWERS
   - A call returns its number: 0, or the first cause against it (enum castulfrisa_number; castulfrisa_text has a sentence for each).
     There is no other error channel. Only castulfrisa_method_number, castulfrisa_version, castulfrisa_join, castulfrisa_text and
     castulfrisa_field return something else.
   - On any number but 0 all that is told through lent numbers is 0, but a bad list's number, a cursor (castulfrisa_next_name's stays, a
     refused castulfrisa_open_list's yields only the end) and a position; and all outputs but H, a digest and the session identifier are
     as they were.
   - A position is where a payload breaks, counted from 0 at its first byte. castulfrisa_open_list, castulfrisa_read_init and
     castulfrisa_read_reply tell it: with 12 where the field that passes the end begins, a string at its four length bytes; with 13 the
     first byte left over; with every other number 0. With 12 it may be the payload's length, where not one byte of the field is there:
     no byte to read. castulfrisa_field has the field's name.
   - A part is a place in the payload that was handed in: bytes payload[start] to payload[start + len - 1].
   - Numbers are judged as they come, all 64 bits: 257 is no method. A yes is 1; every other number, 2 too, is a no. A yes/no that is
     told is 1 or 0.

   AN EXCHANGE
   - It is a buffer of CASTULFRISA_EXCHANGE bytes, the caller's, which only the library reads and writes: castulfrisa_start makes it,
     every step changes it in place. Keep one, and no copy: a copy from before a fault is an exchange that has not failed, and it has K.
     Bytes that no exchange has, and buffers of another length, are answered 1 and stay.
   - The room is the caller's buffer of at least CASTULFRISA_ROOM bytes, the same at every call of one connection and no other's, and nobody
     writes to it in between, but to wipe what may be wiped, below. It begins with the fields of the hash input so far.
   - A complete exchange is what castulfrisa_derive takes the keys from, and behind the last of them what castulfrisa_again begins the
     connection's next exchange with, in the same two buffers. It keeps the session identifier, which is H of the first exchange completed
     since castulfrisa_start, and how many were completed: no later exchange changes the identifier, and a fault neither.
   - From the secret step on the exchange holds K and H, and the room K. Where the connection may be rekeyed, keep exchange and room as long
     as it lasts. Of a complete exchange's room castulfrisa_again needs the beginning, V_C and V_S with four length bytes each: all behind it
     may be wiped, and must be where K is not to stand there until it is written over. castulfrisa_again takes K and H out of the exchange.
     Where no other exchange follows, the room may be wiped when it is complete, the exchange when castulfrisa_derive gave the last key. The
     library wipes exchange and room on a peer's fault only: castulfrisa_wipe them, the K output and the keys, and castulfrisa_wipe_stack what
     the calls left below them.

   A HASH
   - It is a buffer of CASTULFRISA_HASH_SIZE bytes, the caller's, which only the library reads and writes: castulfrisa_hash_start makes it,
     castulfrisa_hash_feed changes it in place. A copy is a hash of its own. castulfrisa_hash_feed and castulfrisa_hash_finish judge its kind
     and the two lengths in it: a buffer where they do not fit is answered 4 and stays, as is one of another length by every call. It holds
     bytes of what it was fed: castulfrisa_wipe it where they are secret. An exchange needs none: castulfrisa_take_secret hands out H, and
     castulfrisa_derive the keys. */
#ifndef CASTULFRISA_H
#define CASTULFRISA_H

#include <stdint.h>

#ifdef __cplusplus
extern "C" {
#endif

/* The number of this header. castulfrisa_version() tells the archive's: where the two differ, they are of different days. It goes up
   by one where an entry or a size changes. */
#define CASTULFRISA_VERSION 6

#if defined(__GNUC__)
#define CASTULFRISA_MUST_USE __attribute__((warn_unused_result))
#else
#define CASTULFRISA_MUST_USE
#endif

/* Of a function in this header: a frame of its own, with nothing of the compiler's between the caller's and its one object. */
#if defined(__clang__) || (defined(__GNUC__) && __GNUC__ >= 11)
#define CASTULFRISA_NOINLINE __attribute__((noinline, unused, no_stack_protector))
#elif defined(__GNUC__)
#define CASTULFRISA_NOINLINE __attribute__((noinline, unused))
#endif

/* ---- sizes, in bytes */

#define CASTULFRISA_EXCHANGE 228       /* the exchange, exactly */
#define CASTULFRISA_ROOM 14156         /* the room, at least */
#define CASTULFRISA_INIT 1670          /* the output for INIT, at least, in every method */
#define CASTULFRISA_REPLY 5774         /* the output for REPLY, at least, in every method */
#define CASTULFRISA_K 71               /* the output for K, at least; K stands at its beginning, zeros after it up to 71 */
#define CASTULFRISA_V_MOST 253         /* V_C, V_S: 1 to this, without the bytes 0, 10 and 13 */
#define CASTULFRISA_KEXINIT_MOST 4096  /* I_C, I_S and any KEXINIT: 1 to this, the first byte 20 */
#define CASTULFRISA_BLOB_MOST 2048     /* K_S and signature: 1 to this */
#define CASTULFRISA_PAYLOAD_MOST 32768 /* INIT and REPLY as received: 1 to this */
#define CASTULFRISA_VALUE_MOST 1665    /* C and S of any method; castulfrisa_method_sizes has each */
#define CASTULFRISA_X_MOST 66          /* the classical output X of any method */
#define CASTULFRISA_K_PQ_SIZE 32       /* the KEM's output K_PQ, exactly, in methods 7 to 9 */
#define CASTULFRISA_H_SIZE 64          /* H, a digest and the session identifier, exactly: the digest's own bytes, then zeros */
#define CASTULFRISA_KEY_MOST 128       /* a key: 1 to this */
#define CASTULFRISA_HASH_SIZE 209      /* a hash, exactly */
#define CASTULFRISA_HASH_MOST 65536    /* what one hash is fed in all */
#define CASTULFRISA_COOKIE 16          /* a KEXINIT's cookie */
#define CASTULFRISA_LISTS 10           /* a KEXINIT's lists; this is a count */
#define CASTULFRISA_METHOD_NAME_MOST 28 /* the name of any method */

/* What castulfrisa_wipe_stack wipes: no call reaches as far (docs/MEASUREMENTS.md). A host whose loader looks memcpy up at its first call
   defines more. */
#ifndef CASTULFRISA_STACK
#define CASTULFRISA_STACK 4096
#endif

/* ---- numbers given back
   1 to 5 and 19 to 23: nothing changes, neither exchange, room, hash nor output; but a refused start leaves a failed exchange, or a hash of
   no kind, and H, a digest and the session identifier that a call tells become zeros.
   10 to 18 in a step are a peer's fault: the whole room becomes zeros and the exchange has failed for good with that number; of it only
   role, method and number are left, the session identifier and how many exchanges were completed: no length, no K and no H. Outputs stay,
   H becomes zeros. Where there is no exchange (strings, mpints,
   KEXINIT, choice) 10 to 13 change nothing. */

enum castulfrisa_number {
    CASTULFRISA_OK = 0,                  /* accepted */
    CASTULFRISA_NOT_DUE = 1,             /* the call is not due: a step out of turn, also when complete or failed, or a key or a new beginning of
                                            an exchange that is not complete; or the bytes are no exchange's */
    CASTULFRISA_NO_METHOD = 2,           /* method not 1 to 9, or role neither client nor server */
    CASTULFRISA_SHORT_ROOM = 3,          /* room too short */
    CASTULFRISA_BAD_INPUT = 4,           /* a field, outcome, K_PQ or hash handed in has a wrong length or form, a hash would be fed too much, or
                                            no key has that letter or length */
    CASTULFRISA_SHORT_OUTPUT = 5,        /* an output too short */
    CASTULFRISA_PAYLOAD_SIZE = 10,       /* payload empty or too long */
    CASTULFRISA_MESSAGE = 11,            /* another message's number */
    CASTULFRISA_PAST_END = 12,           /* a field, or its four length bytes, passes the end */
    CASTULFRISA_LEFT_OVER = 13,          /* bytes left over */
    CASTULFRISA_FIELD_LENGTH = 14,       /* field length not allowed */
    CASTULFRISA_LEAD_BYTE = 15,          /* a NIST point does not begin with 4 */
    CASTULFRISA_CLASSICAL = 16,          /* classical primitive failed, or all zero where that is refused */
    CASTULFRISA_KEM = 17,                /* KEM failed */
    CASTULFRISA_VERDICT = 18,            /* signature or host key not accepted */
    CASTULFRISA_BAD_NAME = 19,           /* bad name in a list */
    CASTULFRISA_NO_COMMON_METHOD = 20,   /* no method in both lists */
    CASTULFRISA_NO_COMMON_HOST_KEY = 21, /* no host key name in both lists */
    CASTULFRISA_NOT_SHORTEST = 22,       /* mpint body could be shorter */
    CASTULFRISA_COUNT_FULL = 23          /* 4,294,967,295 exchanges are complete: this session can begin no other */
};

enum castulfrisa_role { CASTULFRISA_CLIENT = 1, CASTULFRISA_SERVER = 2 };

enum castulfrisa_method {
    CASTULFRISA_CURVE25519_SHA256 = 1,
    CASTULFRISA_CURVE25519_SHA256_LIBSSH = 2,
    CASTULFRISA_CURVE448_SHA512 = 3,
    CASTULFRISA_NISTP256_SHA256 = 4,
    CASTULFRISA_NISTP384_SHA384 = 5,
    CASTULFRISA_NISTP521_SHA512 = 6,
    CASTULFRISA_MLKEM768_NISTP256_SHA256 = 7,
    CASTULFRISA_MLKEM1024_NISTP384_SHA384 = 8,
    CASTULFRISA_MLKEM768_X25519_SHA256 = 9
};

/* The ten lists of a KEXINIT, as RFC 4253, section 7.1 has them; c2s is client to server. */
enum castulfrisa_list {
    CASTULFRISA_LIST_KEX = 1,
    CASTULFRISA_LIST_HOST_KEY = 2,
    CASTULFRISA_LIST_CIPHER_C2S = 3,
    CASTULFRISA_LIST_CIPHER_S2C = 4,
    CASTULFRISA_LIST_MAC_C2S = 5,
    CASTULFRISA_LIST_MAC_S2C = 6,
    CASTULFRISA_LIST_COMPRESSION_C2S = 7,
    CASTULFRISA_LIST_COMPRESSION_S2C = 8,
    CASTULFRISA_LIST_LANGUAGE_C2S = 9,
    CASTULFRISA_LIST_LANGUAGE_S2C = 10
};

enum castulfrisa_stage {
    CASTULFRISA_STARTED = 0,     /* V_C, V_S, I_C and I_S are in the room */
    CASTULFRISA_C_SENT = 1,      /* client: own C went out */
    CASTULFRISA_INIT_READ = 2,   /* server: C came in */
    CASTULFRISA_REPLY_READ = 3,  /* client: K_S and S came in */
    CASTULFRISA_SECRET_DONE = 4, /* K and H are known, and the hash input is whole */
    CASTULFRISA_COMPLETE = 5,    /* every step of the role was accepted */
    CASTULFRISA_FAILED = 6       /* ended for good */
};

enum castulfrisa_kem { CASTULFRISA_KEM_ABSENT = 0, CASTULFRISA_KEM_FAILED = 1, CASTULFRISA_KEM_DONE = 2 };

/* The kinds of hash: each is its digest's length. */
enum castulfrisa_kind { CASTULFRISA_SHA256 = 32, CASTULFRISA_SHA384 = 48, CASTULFRISA_SHA512 = 64 };

/* The six keys of RFC 4253, section 7.2, by their letters, A to F; c2s is client to server. */
enum castulfrisa_letter {
    CASTULFRISA_IV_C2S = 65,
    CASTULFRISA_IV_S2C = 66,
    CASTULFRISA_CIPHER_KEY_C2S = 67,
    CASTULFRISA_CIPHER_KEY_S2C = 68,
    CASTULFRISA_MAC_KEY_C2S = 69,
    CASTULFRISA_MAC_KEY_S2C = 70
};

/* ---- what calls tell, each a run of 64-bit numbers */

typedef struct { uint64_t start, len; } castulfrisa_part;
typedef struct { castulfrisa_part body, rest; } castulfrisa_string;

typedef struct {
    uint64_t c_len, c_classical; /* C's length, and where its classical part begins behind the KEM's; 0 where there is no KEM */
    uint64_t s_len, s_classical; /* S's, likewise */
    uint64_t x_len, digest_len;  /* lengths of the classical output X and of the digest in H, which is the kind of its hash */
    uint64_t hybrid, zero_check; /* whether a KEM belongs to it; whether an all-zero X is refused */
} castulfrisa_sizes;

/* A place in a list, as castulfrisa_open_list makes it. */
typedef struct { uint64_t at, end; } castulfrisa_cursor;

typedef struct {
    castulfrisa_part cookie;
    uint64_t follows;          /* first_kex_packet_follows */
    uint64_t reserved;         /* as found */
    castulfrisa_cursor cursor; /* at the list's beginning */
    uint64_t position;         /* with 12 and 13: where the payload breaks */
} castulfrisa_opened;

typedef struct {
    uint64_t count;    /* bytes written */
    uint64_t bad_list; /* enum castulfrisa_list: the first that is bad; 0 where none is */
} castulfrisa_proposed;

typedef struct {
    uint64_t method;                       /* 1 to 9 */
    castulfrisa_part host_key;             /* the host key name, a part of the client's payload */
    uint64_t ignore_client, ignore_server; /* whether that side's next packet is a wrong guess, to be ignored */
} castulfrisa_choice;

typedef struct {
    castulfrisa_part c;
    uint64_t position; /* with 12 and 13: where the payload breaks */
} castulfrisa_init;

typedef struct {
    castulfrisa_part host_key, s, signature;
    uint64_t position; /* with 12 and 13: where the payload breaks */
} castulfrisa_reply;

typedef struct {
    uint64_t reply; /* REPLY's bytes */
    uint64_t k;     /* K's, its four length bytes included */
} castulfrisa_signed;

typedef struct {
    uint64_t stage, fail;  /* enum castulfrisa_stage; the number that ended a failed exchange, else 0 */
    uint64_t role, method; /* 0 in a start that was refused */
} castulfrisa_progress;

typedef struct {
    uint64_t id_len;    /* the session identifier's bytes: 0 until the first exchange is complete, then 32, 48 or 64 */
    uint64_t completed; /* how many exchanges were completed since castulfrisa_start */
} castulfrisa_session;

/* ---- strings and mpints (RFC 4251, section 5) */

/* Reads the string at the front of s: body, and the rest behind it, as parts of s.
   12: s is shorter than the string, or than its four length bytes. */
CASTULFRISA_MUST_USE uint64_t castulfrisa_read_string(const uint8_t *s, uint64_t s_len, castulfrisa_string *parts);

/* Writes body as a string into out. Count: 4 + body_len.
   4: body above 4,294,967,295 bytes; 5: out shorter than the count. */
CASTULFRISA_MUST_USE uint64_t castulfrisa_write_string(
    uint8_t *out, uint64_t out_len, const uint8_t *body, uint64_t body_len, uint64_t *count);

/* Reads the mpint at the front of s: sign -1, 0 or 1, its two's complement body, and the rest behind it, as parts of s.
   12: as above; 22: the body could be shorter. */
CASTULFRISA_MUST_USE uint64_t castulfrisa_read_mpint(const uint8_t *s, uint64_t s_len, int64_t *sign, castulfrisa_string *parts);

/* Writes a number, any two's complement bytes with the high byte first (none meaning zero), as an mpint into out. Count: bytes
   written, 4 and the shortest body's. 4: a body above 4,294,967,295 bytes; 5: out shorter than the count. */
CASTULFRISA_MUST_USE uint64_t castulfrisa_write_mpint(
    uint8_t *out, uint64_t out_len, const uint8_t *bytes, uint64_t bytes_len, uint64_t *count);

/* ---- methods */

/* The number of the method of this name, 1 to 9; 0 with none. */
CASTULFRISA_MUST_USE uint64_t castulfrisa_method_number(const uint8_t *name, uint64_t name_len);

/* Writes the name of a method into out, with no zero behind it. Count: its bytes. 2: method; 5: out shorter than the name. */
CASTULFRISA_MUST_USE uint64_t castulfrisa_method_name(uint64_t method, uint8_t *out, uint64_t out_len, uint64_t *count);

/* The sizes of a method. 2: method, and all of them 0. */
CASTULFRISA_MUST_USE uint64_t castulfrisa_method_sizes(uint64_t method, castulfrisa_sizes *sizes);

/* ---- KEXINIT (RFC 4253, section 7.1) */

/* Writes a KEXINIT into out. The ten lists, as they stand on the wire (names parted by commas, or nothing), stand one behind another in
   lists; ends[i] is where list i + 1 ends, counted from the first byte of lists, and the last ends with them. castulfrisa_join makes
   both from ten pointers and lengths. Count: bytes written, 62 and the lists'.
   4: a bad list, which is named (a bad name, an end ahead of its beginning or behind lists); or a cookie not of 16 bytes, bytes behind
   the last list, a reserved number above 32 bits, a total above 4,096. 5: out shorter than the count. */
CASTULFRISA_MUST_USE uint64_t castulfrisa_write_kexinit(
    uint8_t *out, uint64_t out_len,
    const uint8_t *cookie, uint64_t cookie_len,
    const uint8_t *lists, uint64_t lists_len,
    const uint64_t ends[CASTULFRISA_LISTS],
    uint64_t follows, uint64_t reserved,
    castulfrisa_proposed *told);

/* Opens a payload for one of its lists (enum castulfrisa_list): cookie, boolean, reserved number, and a cursor for
   castulfrisa_next_name. Names are judged only as they are yielded. A refusal's cursor yields only the end.
   4: list number; 10 to 13: the payload, with 12 and 13 the position. */
CASTULFRISA_MUST_USE uint64_t castulfrisa_open_list(
    const uint8_t *payload, uint64_t payload_len, uint64_t list, castulfrisa_opened *opened);

/* The next name, as a part of the payload that was opened; the cursor moves behind it. A name has at least one byte: at the list's end
   the number is 0 and the name has none. 19: a bad name. At both the cursor stays. Any other cursor is answered too. */
CASTULFRISA_MUST_USE uint64_t castulfrisa_next_name(
    const uint8_t *payload, uint64_t payload_len, castulfrisa_cursor *cursor, castulfrisa_part *name);

/* The choice from a client's and a server's KEXINIT: the first of the client's methods that is one of the nine and in the server's
   list, and the first of its host key names that is in the server's.
   10 to 13, then 19 in any of the ten lists: the client's payload, then the server's; which of the two, the number does not tell. 20, 21. */
CASTULFRISA_MUST_USE uint64_t castulfrisa_choose(
    const uint8_t *client, uint64_t client_len, const uint8_t *server, uint64_t server_len, castulfrisa_choice *choice);

/* ---- an exchange, in the order of its life
   client: start, own_c, read_reply, take_secret, verdict.   server: start, read_init, take_secret, sign.
   A connection's later exchanges: again in start's place, once the keys are derived, and the same steps.
   Every step is answered 1 for bytes that no exchange has and while it is not due, then 3 for a room below CASTULFRISA_ROOM, then by its
   own causes; start and again, which are no steps, in the order that stands with them. */

/* Starts an exchange in role (enum castulfrisa_role) and method, in an exchange buffer that may hold anything. V_C, V_S: the version
   lines without CR and LF. I_C, I_S: the two KEXINIT payloads. All four go into the room; the rest of it stays.
   1: exchange_len; 2: role or method; 3: room; 4: one of the four. On 2 to 4 the room stays, and the exchange is one that failed with the
   number. Accepted or refused, what stood there is gone, the session identifier too: a connection's later exchanges begin with
   castulfrisa_again. */
CASTULFRISA_MUST_USE uint64_t castulfrisa_start(
    uint8_t *exchange, uint64_t exchange_len,
    uint64_t role, uint64_t method,
    const uint8_t *vc, uint64_t vc_len,
    const uint8_t *vs, uint64_t vs_len,
    const uint8_t *ic, uint64_t ic_len,
    const uint8_t *is, uint64_t is_len,
    uint8_t *room, uint64_t room_len);

/* Client: own C, the public value for the wire. INIT is written into out, C goes into the room. Count: INIT's bytes.
   1; 3; 4: C's length, or a NIST point that does not begin with 4; 5: out below CASTULFRISA_INIT. */
CASTULFRISA_MUST_USE uint64_t castulfrisa_own_c(
    uint8_t *exchange, uint64_t exchange_len, uint8_t *room, uint64_t room_len,
    const uint8_t *c, uint64_t c_len, uint8_t *out, uint64_t out_len, uint64_t *count);

/* Server: reads INIT. C goes into the room; its place in the payload is told. 1; 3; 10 to 15: the peer's fault, with 12 and 13 the
   position. */
CASTULFRISA_MUST_USE uint64_t castulfrisa_read_init(
    uint8_t *exchange, uint64_t exchange_len, uint8_t *room, uint64_t room_len,
    const uint8_t *payload, uint64_t payload_len, castulfrisa_init *told);

/* Client: reads REPLY. K_S goes into the room ahead of C, S behind it; their places and the signature's are told.
   1; 3; 10 to 15: the peer's fault, with 12 and 13 the position. */
CASTULFRISA_MUST_USE uint64_t castulfrisa_read_reply(
    uint8_t *exchange, uint64_t exchange_len, uint8_t *room, uint64_t room_len,
    const uint8_t *payload, uint64_t payload_len, castulfrisa_reply *told);

/* Both roles: what the primitives gave.
   given   a no: the classical primitive failed, and x_count and x are not looked at. A yes: it gave x_count bytes, which are x, with
           no byte dropped or added: K's leading zeros are the library's business.
   x_count how many bytes the primitive says that it gave, beside how many are lent: where they differ from each other or from the
           method's X, it is 4, so that a primitive that wrote less than its buffer holds is noticed.
   kem     enum castulfrisa_kem: absent exactly in methods 1 to 6.
   k_pq    the KEM's CASTULFRISA_K_PQ_SIZE bytes where it is done, whatever the classical primitive did; empty where it is not.
   ks, s   a server's host key blob and own public value, also where a primitive failed; a client's are not looked at.
   h       becomes H: the method's hash of the room's first count bytes, as they stand behind this step. What is signed and verified is its
           first digest_len bytes (castulfrisa_method_sizes), and not the zeros behind them.
   K goes into the exchange and the room, in methods 7 to 9 the string of the method's hash of K_PQ and then X; H into the exchange; a server's
   K_S goes into the room ahead of C, its S behind it. Count: length of the hash input, which is the room's beginning.
   1; 3; 4: one of the inputs, also any other number for kem; 16, 17: the primitives' failures, the peer's fault. */
CASTULFRISA_MUST_USE uint64_t castulfrisa_take_secret(
    uint8_t *exchange, uint64_t exchange_len, uint8_t *room, uint64_t room_len,
    uint64_t given, uint64_t x_count, const uint8_t *x, uint64_t x_len,
    uint64_t kem,
    const uint8_t *k_pq, uint64_t k_pq_len,
    const uint8_t *ks, uint64_t ks_len,
    const uint8_t *s, uint64_t s_len,
    uint64_t *count,
    uint8_t h[CASTULFRISA_H_SIZE]);

/* Server, last: the signature over the exchange hash, as a blob. REPLY is written into out, K's 71 bytes into k_out; the room is only
   read. 1; 3; 4: signature's length; 5: out below CASTULFRISA_REPLY or k_out below CASTULFRISA_K. */
CASTULFRISA_MUST_USE uint64_t castulfrisa_sign(
    uint8_t *exchange, uint64_t exchange_len, const uint8_t *room, uint64_t room_len,
    const uint8_t *signature, uint64_t signature_len,
    uint8_t *out, uint64_t out_len, uint8_t *k_out, uint64_t k_out_len, castulfrisa_signed *counts);

/* Client, last: whether the signature over the exchange hash verified, and whether the host key is accepted, 1 each. K's 71 bytes are
   written into k_out. Count: K's bytes, its four length bytes included.
   1; 3; 5: k_out below CASTULFRISA_K; 18: one of the two is not 1, the peer's fault. */
CASTULFRISA_MUST_USE uint64_t castulfrisa_verdict(
    uint8_t *exchange, uint64_t exchange_len, uint8_t *room, uint64_t room_len,
    uint64_t signature, uint64_t host_key, uint8_t *k_out, uint64_t k_out_len, uint64_t *count);

/* Both roles: begins a complete exchange again, in the same role and any method, with the V's as they stand at the room's beginning, which
   stay there and are not judged, and new I_C and I_S, which go into the room behind them; the rest of it stays. K and H become zeros: derive
   the keys first. The session identifier and how many exchanges were completed stay.
   1: no exchange's bytes, not complete, or something in it does not fit; 2: method; 3: room; 4: I_C or I_S; 23. Refused, the exchange stays
   complete. */
CASTULFRISA_MUST_USE uint64_t castulfrisa_again(
    uint8_t *exchange, uint64_t exchange_len, uint8_t *room, uint64_t room_len,
    uint64_t method,
    const uint8_t *ic, uint64_t ic_len,
    const uint8_t *is, uint64_t is_len);

/* ---- calls on an exchange that are no steps: they tell, or derive a key, and change neither exchange nor room */

/* What castulfrisa_read_init would answer, and where C stands in the INIT; {0, 0} for all that it would refuse. */
CASTULFRISA_MUST_USE uint64_t castulfrisa_init_c(
    const uint8_t *exchange, uint64_t exchange_len, const uint8_t *room, uint64_t room_len,
    const uint8_t *payload, uint64_t payload_len, castulfrisa_part *c);

/* What castulfrisa_read_reply would answer, and where K_S, S or the signature stands in the REPLY, likewise. */
CASTULFRISA_MUST_USE uint64_t castulfrisa_reply_host_key(
    const uint8_t *exchange, uint64_t exchange_len, const uint8_t *room, uint64_t room_len,
    const uint8_t *payload, uint64_t payload_len, castulfrisa_part *host_key);
CASTULFRISA_MUST_USE uint64_t castulfrisa_reply_s(
    const uint8_t *exchange, uint64_t exchange_len, const uint8_t *room, uint64_t room_len,
    const uint8_t *payload, uint64_t payload_len, castulfrisa_part *s);
CASTULFRISA_MUST_USE uint64_t castulfrisa_reply_signature(
    const uint8_t *exchange, uint64_t exchange_len, const uint8_t *room, uint64_t room_len,
    const uint8_t *payload, uint64_t payload_len, castulfrisa_part *signature);

/* How far an exchange has come, what ended it, its role and its method, as the bytes have them. 1: the length, the mark, the stage or the
   number that ended it is no exchange's, and all of it is 0. Whether the rest fits, the next call judges. */
CASTULFRISA_MUST_USE uint64_t castulfrisa_state(const uint8_t *exchange, uint64_t exchange_len, castulfrisa_progress *told);

/* The session identifier, which user authentication signs, and how many exchanges were completed, at every stage, also of a failed one, as the
   bytes have them: zeros until the first is complete. The first id_len bytes of id are it.
   1: no exchange's bytes, or the identifier's length does not go with the count (0 where that is 0, else 32, 48 or 64). Whether the rest
   fits, the count by itself too, the next call judges. */
CASTULFRISA_MUST_USE uint64_t castulfrisa_session_id(
    const uint8_t *exchange, uint64_t exchange_len, castulfrisa_session *told, uint8_t id[CASTULFRISA_H_SIZE]);

/* A key of a complete exchange, by RFC 4253, section 7.2, and by the method's hash: of K, H and the session identifier, which the exchange
   holds, and of the key's letter (enum castulfrisa_letter). `length` bytes of it go to the beginning of key: fewer are a beginning of what
   more would be.
   1: no exchange's bytes, not complete, or its role, method, a length or the count in it does not fit; 4: letter, or a length not 1 to CASTULFRISA_KEY_MOST,
   however long key is; 5: key shorter than the length. */
CASTULFRISA_MUST_USE uint64_t castulfrisa_derive(
    const uint8_t *exchange, uint64_t exchange_len, uint64_t letter, uint64_t length, uint8_t *key, uint64_t key_len);

/* ---- hashes (FIPS 180-4), for what a host hashes besides */

/* Starts a hash of a kind (enum castulfrisa_kind), in a buffer that may hold anything.
   4: hash_len, and the buffer stays; or another kind, and what stands there is then a hash of no kind, which every call refuses. */
CASTULFRISA_MUST_USE uint64_t castulfrisa_hash_start(uint8_t *hash, uint64_t hash_len, uint64_t kind);

/* Feeds a part. Two parts are as good as the two joined, and an empty one changes nothing.
   4: no hash, for an empty part too; or more than CASTULFRISA_HASH_MOST bytes in all. */
CASTULFRISA_MUST_USE uint64_t castulfrisa_hash_feed(uint8_t *hash, uint64_t hash_len, const uint8_t *part, uint64_t part_len);

/* The digest of what was fed. The hash stays, and may be fed on. 4: no hash. */
CASTULFRISA_MUST_USE uint64_t castulfrisa_hash_finish(const uint8_t *hash, uint64_t hash_len, uint8_t digest[CASTULFRISA_H_SIZE]);

/* ---- for the host */

/* Fills a buffer with zeros. It stands in the archive as machine code, out of the host compiler's sight, which can drop no part of it. */
void castulfrisa_wipe(uint8_t *buffer, uint64_t buffer_len);

/* The archive's own CASTULFRISA_VERSION. */
CASTULFRISA_MUST_USE uint64_t castulfrisa_version(void);

/* ---- in the header, so that they cost nothing where they are not used */

/* Overwrites CASTULFRISA_STACK bytes of stack below the caller's frame, which must be there: K, K_PQ, X and keys stay there in copies that the
   compiler made. Call it from the function that made the calls. For gcc and clang: another compiler may put it into the caller's own frame. */
#if defined(__GNUC__)
static CASTULFRISA_NOINLINE void castulfrisa_wipe_stack(void)
{
    volatile uint32_t below[CASTULFRISA_STACK / 4]; /* the first counts down through the others: a counter beside them leaves a gap */
    for (below[0] = CASTULFRISA_STACK / 4 - 1; below[0] > 0; below[0]--) below[below[0]] = 0;
}
#endif

typedef struct { const uint8_t *at; uint64_t len; } castulfrisa_bytes;

/* Lays ten lists one behind another into joined, and their ends into ends, for castulfrisa_write_kexinit. Returns how many bytes they
   have in all; more than joined_len says that they did not fit, and joined is not to be used. CASTULFRISA_KEXINIT_MOST bytes hold the lists
   of every KEXINIT that can be written. */
CASTULFRISA_MUST_USE static inline uint64_t castulfrisa_join(
    const castulfrisa_bytes lists[CASTULFRISA_LISTS], uint8_t *joined, uint64_t joined_len, uint64_t ends[CASTULFRISA_LISTS])
{
    uint64_t total = 0, i;
    uint32_t list;
    for (list = 0; list < CASTULFRISA_LISTS; list++) {
        for (i = 0; i < lists[list].len; i++, total++)
            if (total < joined_len) joined[total] = lists[list].at[i];
        ends[list] = total;
    }
    return total;
}

/* A sentence for a number. */
CASTULFRISA_MUST_USE static inline const char *castulfrisa_text(uint64_t number)
{
    switch (number) {
    case CASTULFRISA_OK: return "accepted";
    case CASTULFRISA_NOT_DUE: return "the call is not due, or the bytes lent for the exchange are none";
    case CASTULFRISA_NO_METHOD: return "there is no such method or role";
    case CASTULFRISA_SHORT_ROOM: return "the room is too short";
    case CASTULFRISA_BAD_INPUT: return "a field, outcome, K_PQ or hash handed in has a wrong length or form, a hash would be fed too much, or no key has that letter or length";
    case CASTULFRISA_SHORT_OUTPUT: return "an output is too short";
    case CASTULFRISA_PAYLOAD_SIZE: return "the payload is empty or too long";
    case CASTULFRISA_MESSAGE: return "the payload is another message";
    case CASTULFRISA_PAST_END: return "a field of the payload passes its end";
    case CASTULFRISA_LEFT_OVER: return "the payload has bytes left over";
    case CASTULFRISA_FIELD_LENGTH: return "a field of the payload has a length that is not allowed";
    case CASTULFRISA_LEAD_BYTE: return "the peer's point does not begin with 4";
    case CASTULFRISA_CLASSICAL: return "the classical primitive failed, or gave all zeros";
    case CASTULFRISA_KEM: return "the KEM failed";
    case CASTULFRISA_VERDICT: return "the signature or the host key is not accepted";
    case CASTULFRISA_BAD_NAME: return "a list has a bad name";
    case CASTULFRISA_NO_COMMON_METHOD: return "the two sides have no method in common";
    case CASTULFRISA_NO_COMMON_HOST_KEY: return "the two sides have no host key algorithm in common";
    case CASTULFRISA_NOT_SHORTEST: return "an mpint could be shorter";
    case CASTULFRISA_COUNT_FULL: return "4,294,967,295 exchanges are complete: this session can begin no other";
    default: return "no number of this library";
    }
}

/* The field of an INIT, REPLY or KEXINIT that a position tells: C; K_S, S or signature; of a KEXINIT its name in the RFC. "bytes left over"
   where every field is ahead of it. "no field" for another payload, and for a position where none of its fields begins: 0 is one. */
CASTULFRISA_MUST_USE static inline const char *castulfrisa_field(const uint8_t *payload, uint64_t payload_len, uint64_t position)
{
    static const char *const init[] = {"C"};
    static const char *const reply[] = {"K_S", "S", "signature"};
    static const char *const lists[CASTULFRISA_LISTS] = {
        "kex_algorithms", "server_host_key_algorithms",
        "encryption_algorithms_client_to_server", "encryption_algorithms_server_to_client",
        "mac_algorithms_client_to_server", "mac_algorithms_server_to_client",
        "compression_algorithms_client_to_server", "compression_algorithms_server_to_client",
        "languages_client_to_server", "languages_server_to_client"};
    const char *const *names = init;
    uint64_t at = 1, n;
    uint32_t i, count = 1;
    uint8_t message;
    if (payload_len == 0 || position > payload_len) return "no field";
    message = payload[0];
    switch (message) {
    case 20:
        if (position == at) return "cookie";
        at += CASTULFRISA_COOKIE;
        names = lists;
        count = CASTULFRISA_LISTS;
        break;
    case 30: break;
    case 31:
        names = reply;
        count = 3;
        break;
    default: return "no field";
    }
    for (i = 0; i < count; i++) {
        if (position == at) return names[i];
        if (at > payload_len || payload_len - at < 4) return "no field";
        n = (uint64_t)payload[at] << 24 | (uint64_t)payload[at + 1] << 16 | (uint64_t)payload[at + 2] << 8 | payload[at + 3];
        if (payload_len - at - 4 < n) return "no field";
        at += 4 + n;
    }
    if (message == 20) {
        if (position == at) return "first_kex_packet_follows";
        if (position == at + 1) return "reserved";
        at += 5;
    }
    return position == at ? "bytes left over" : "no field";
}

#ifdef __cplusplus
}
#endif

#endif
