/* The header against the library: exchanges, all nine methods in both roles, one behind another in one session, with every cause tried on the
   way. The messages and the hash input are laid out here by hand. */
#include "header_test.h"

#define EX CASTULFRISA_EXCHANGE
#define ROOM CASTULFRISA_ROOM
/* Where in an exchange's bytes the seven lengths begin, K, H, and what it keeps of the session: the identifier's length, how many exchanges were
   completed, the identifier; no host's business */
#define LENGTHS_AT 5
#define K_AT 19
#define H_AT 90
#define SESSION_AT 154
#define COUNT_AT 156
#define ID_AT 164
#define COUNT_MOST (WIDE - 1)

/* A byte more each, which no call may touch. */
typedef struct { uint8_t exchange[EX + 1], room[ROOM + 1]; } side;

static side client, server;

/* ---- what the steps are handed, and what they must make of it */

static castulfrisa_sizes z;
static uint8_t v_c[CASTULFRISA_V_MOST + 1], v_s[CASTULFRISA_V_MOST + 1];
static uint8_t i_c[CASTULFRISA_KEXINIT_MOST + 1], i_s[CASTULFRISA_KEXINIT_MOST + 1];
static uint8_t c[CASTULFRISA_VALUE_MOST + 1], s[CASTULFRISA_VALUE_MOST + 1];
static uint8_t x[CASTULFRISA_X_MOST + 1], k_pq[CASTULFRISA_K_PQ_SIZE + 1];
static uint8_t ks[CASTULFRISA_BLOB_MOST + 1], signature[CASTULFRISA_BLOB_MOST + 1];
static const uint64_t v_c_len = 9, v_s_len = 8, ks_len = 11, signature_len = 7;
static uint64_t i_c_len, i_s_len;

static uint8_t init[CASTULFRISA_INIT], reply[CASTULFRISA_REPLY], hashed[ROOM], k[CASTULFRISA_K];
static uint64_t init_len, reply_len, started_len, hashed_len, k_len;
static uint8_t h_due[CASTULFRISA_H_SIZE];

static uint64_t put(uint8_t *at, const uint8_t *body, uint64_t len)
{
    at[0] = at[1] = 0;
    at[2] = (uint8_t)(len >> 8);
    at[3] = (uint8_t)len;
    memcpy(at + 4, body, len);
    return 4 + len;
}

/* The method's hash of two parts, by the library's own calls, which header_test.c holds to known digests. */
static void hash_of(const uint8_t *one, uint64_t one_len, const uint8_t *two, uint64_t two_len, uint8_t digest[CASTULFRISA_H_SIZE])
{
    uint8_t hash[CASTULFRISA_HASH_SIZE];
    is(castulfrisa_hash_start(hash, sizeof hash, z.digest_len) == 0 && castulfrisa_hash_feed(hash, sizeof hash, one, one_len) == 0
       && castulfrisa_hash_feed(hash, sizeof hash, two, two_len) == 0 && castulfrisa_hash_finish(hash, sizeof hash, digest) == 0, "a hash");
}

static int is_nist(void) { return method >= CASTULFRISA_NISTP256_SHA256 && method <= CASTULFRISA_MLKEM1024_NISTP384_SHA384; }

/* Of an exchange by its number in the session, from 0 on: each has other I's, shorter than the last one's and then longer, and another X. */
static void material(uint64_t m, unsigned number)
{
    uint8_t digest[CASTULFRISA_H_SIZE];
    method = m;
    i_c_len = number == 1 ? 21 : 70 + number;
    i_s_len = number == 1 ? 1 : 80 + number;
    is(castulfrisa_method_sizes(m, &z) == 0, "a method");
    memset(v_c, 'c', sizeof v_c);
    memset(v_s, 's', sizeof v_s);
    memset(i_c, 20, sizeof i_c);
    memset(i_s, 20, sizeof i_s);
    memset(c, 4, sizeof c);
    memset(s, 4, sizeof s);
    memset(x, (int)(0x91 + number), sizeof x);
    memset(k_pq, 0x92, sizeof k_pq);
    memset(ks, 0x4b, sizeof ks);
    memset(signature, 0x77, sizeof signature);

    /* K: of a hybrid the string of the digest of K_PQ and X, of the others X as an mpint, a zero longer for its high bit */
    memset(k, 0, sizeof k);
    hash_of(k_pq, CASTULFRISA_K_PQ_SIZE, x, z.x_len, digest);
    k_len = z.hybrid ? put(k, digest, z.digest_len) : put(k, x, z.x_len + 1);
    if (!z.hybrid) k[4] = 0;

    init[0] = 30;
    init_len = 1 + put(init + 1, c, z.c_len);
    reply[0] = 31;
    reply_len = 1 + put(reply + 1, ks, ks_len);
    reply_len += put(reply + reply_len, s, z.s_len);
    reply_len += put(reply + reply_len, signature, signature_len);

    hashed_len = put(hashed, v_c, v_c_len);
    hashed_len += put(hashed + hashed_len, v_s, v_s_len);
    hashed_len += put(hashed + hashed_len, i_c, i_c_len);
    hashed_len += put(hashed + hashed_len, i_s, i_s_len);
    started_len = hashed_len;
    hashed_len += put(hashed + hashed_len, ks, ks_len);
    hashed_len += put(hashed + hashed_len, c, z.c_len);
    hashed_len += put(hashed + hashed_len, s, z.s_len);
    memcpy(hashed + hashed_len, k, k_len);
    hashed_len += k_len;
    hash_of(hashed, hashed_len, NULL, 0, h_due);
}

/* What start and take_secret are handed: the right inputs, of which a test changes one. */
typedef struct {
    uint64_t role, method;
    const uint8_t *v_c, *v_s;
    uint64_t v_c_len, v_s_len, i_c_len, i_s_len, exchange_len, room_len;
} opening;

typedef struct {
    uint64_t given, x_count;
    const uint8_t *x;
    uint64_t x_len, kem;
    const uint8_t *k_pq, *ks, *s;
    uint64_t k_pq_len, ks_len, s_len;
} outcome;

static opening right_opening(uint64_t role)
{
    opening o = {role, method, v_c, v_s, v_c_len, v_s_len, i_c_len, i_s_len, EX, ROOM};
    return o;
}

static outcome right_outcome(void)
{
    outcome o = {1, z.x_len, x, z.x_len, z.hybrid ? CASTULFRISA_KEM_DONE : CASTULFRISA_KEM_ABSENT,
                 k_pq, ks, s, z.hybrid ? CASTULFRISA_K_PQ_SIZE : 0u, ks_len, z.s_len};
    return o;
}

/* ---- the calls, with the right inputs, an exchange of e and a room of r bytes */

static uint64_t told[8]; /* what they tell, and numbers behind it that are not theirs */
static uint8_t out[CASTULFRISA_REPLY + 1], k_out[CASTULFRISA_K + 1], h[CASTULFRISA_H_SIZE + 1], key[CASTULFRISA_KEY_MOST + 1];

typedef uint64_t (*call)(side *a, uint64_t e, uint64_t r);

static uint64_t start(side *a, const opening *o)
{
    return castulfrisa_start(a->exchange, o->exchange_len, o->role, o->method, o->v_c, o->v_c_len, o->v_s, o->v_s_len, i_c, o->i_c_len,
                             i_s, o->i_s_len, a->room, o->room_len);
}

static uint64_t give(side *a, uint64_t e, uint64_t r, const outcome *o)
{
    return castulfrisa_take_secret(a->exchange, e, a->room, r, o->given, o->x_count, o->x, o->x_len, o->kem, o->k_pq, o->k_pq_len,
                                   o->ks, o->ks_len, o->s, o->s_len, told, h);
}

static uint64_t own_c(side *a, uint64_t e, uint64_t r)
{
    return castulfrisa_own_c(a->exchange, e, a->room, r, c, z.c_len, out, CASTULFRISA_INIT, told);
}

static uint64_t read_init(side *a, uint64_t e, uint64_t r)
{
    return castulfrisa_read_init(a->exchange, e, a->room, r, init, init_len, (castulfrisa_init *)told);
}

static uint64_t read_reply(side *a, uint64_t e, uint64_t r)
{
    return castulfrisa_read_reply(a->exchange, e, a->room, r, reply, reply_len, (castulfrisa_reply *)told);
}

static uint64_t take_secret(side *a, uint64_t e, uint64_t r)
{
    outcome o = right_outcome();
    return give(a, e, r, &o);
}

static uint64_t sign(side *a, uint64_t e, uint64_t r)
{
    return castulfrisa_sign(a->exchange, e, a->room, r, signature, signature_len, out, CASTULFRISA_REPLY, k_out, CASTULFRISA_K,
                            (castulfrisa_signed *)told);
}

static uint64_t verdict(side *a, uint64_t e, uint64_t r)
{
    return castulfrisa_verdict(a->exchange, e, a->room, r, 1, 1, k_out, CASTULFRISA_K, told);
}

static uint64_t init_c(side *a, uint64_t e, uint64_t r)
{
    return castulfrisa_init_c(a->exchange, e, a->room, r, init, init_len, (castulfrisa_part *)told);
}

static uint64_t reply_host_key(side *a, uint64_t e, uint64_t r)
{
    return castulfrisa_reply_host_key(a->exchange, e, a->room, r, reply, reply_len, (castulfrisa_part *)told);
}

static uint64_t reply_s(side *a, uint64_t e, uint64_t r)
{
    return castulfrisa_reply_s(a->exchange, e, a->room, r, reply, reply_len, (castulfrisa_part *)told);
}

static uint64_t reply_signature(side *a, uint64_t e, uint64_t r)
{
    return castulfrisa_reply_signature(a->exchange, e, a->room, r, reply, reply_len, (castulfrisa_part *)told);
}

/* It is lent no room. */
static uint64_t derive(side *a, uint64_t e, uint64_t r)
{
    (void)r;
    return castulfrisa_derive(a->exchange, e, CASTULFRISA_IV_C2S, 16, key, 16);
}

static uint64_t again(side *a, uint64_t e, uint64_t r)
{
    return castulfrisa_again(a->exchange, e, a->room, r, method, i_c, i_c_len, i_s, i_s_len);
}

/* Each, the step that must be due for it, and how many numbers it tells. For a key and for another beginning none is: every step must have been
   accepted. */
static const struct { call make, due; size_t numbers; } calls[] = {
    {own_c, own_c, 1}, {read_init, read_init, 3}, {read_reply, read_reply, 7}, {take_secret, take_secret, 1}, {sign, sign, 2},
    {verdict, verdict, 1}, {init_c, read_init, 2}, {reply_host_key, read_reply, 2}, {reply_s, read_reply, 2},
    {reply_signature, read_reply, 2}, {derive, derive, 0}, {again, derive, 0}};

/* ---- what holds behind a call */

static side was;

static void before(const side *a)
{
    was = *a;
    memset(told, FILL, sizeof told);
    memset(out, FILL, sizeof out);
    memset(k_out, FILL, sizeof k_out);
    memset(h, FILL, sizeof h);
    memset(key, FILL, sizeof key);
}

static int numbers_told(size_t numbers) { return all(told + numbers, FILL, sizeof told - 8 * numbers); }

/* So many numbers were told, all of them 0, and outputs are as they were; but H is zeros where the call hands it out. */
static int told_nothing(size_t numbers, int hands_h)
{
    return all(told, 0, 8 * numbers) && numbers_told(numbers) && all(out, FILL, sizeof out) && all(k_out, FILL, sizeof k_out)
        && all(key, FILL, sizeof key) && all(h, hands_h ? 0 : FILL, CASTULFRISA_H_SIZE) && h[CASTULFRISA_H_SIZE] == FILL;
}

/* So many numbers were told, the last of them a position and the others 0. */
static int told_position(size_t numbers, uint64_t position)
{
    int last = told[numbers - 1] == position;
    told[numbers - 1] = 0;
    return last && told_nothing(numbers, 0);
}

static int same_room(const side *a) { return memcmp(a->room, was.room, sizeof was.room) == 0; }

static int same(const side *a) { return same_room(a) && memcmp(a->exchange, was.exchange, sizeof was.exchange) == 0; }

/* What the exchange at hand must keep of its session. */
typedef struct { uint64_t id_len, completed; uint8_t id[CASTULFRISA_H_SIZE]; } session;

static session kept;

static void no_session(void) { memset(&kept, 0, sizeof kept); }

/* Behind a last step that was accepted: the first H of a session is its identifier. */
static void completed(void)
{
    if (kept.completed++ > 0) return;
    kept.id_len = z.digest_len;
    memcpy(kept.id, h_due, sizeof kept.id);
}

static int session_is(const side *a)
{
    uint8_t id[CASTULFRISA_H_SIZE + 1];
    LEND(castulfrisa_session, t);
    memset(id, FILL, sizeof id);
    return castulfrisa_session_id(a->exchange, EX, &t.told, id) == 0 && KEPT(t) && t.told.id_len == kept.id_len
        && t.told.completed == kept.completed && memcmp(id, kept.id, sizeof kept.id) == 0 && id[CASTULFRISA_H_SIZE] == FILL;
}

static int no_session_id(const side *a, uint64_t len)
{
    uint8_t id[CASTULFRISA_H_SIZE + 1];
    LEND(castulfrisa_session, t);
    memset(id, FILL, sizeof id);
    return castulfrisa_session_id(a->exchange, len, &t.told, id) == CASTULFRISA_NOT_DUE && ZERO(t) && all(id, 0, CASTULFRISA_H_SIZE)
        && id[CASTULFRISA_H_SIZE] == FILL;
}

/* And the session's identifier and count with it. */
static int state_is(const side *a, uint64_t stage, uint64_t fail, uint64_t role, uint64_t m)
{
    LEND(castulfrisa_progress, t);
    return castulfrisa_state(a->exchange, EX, &t.told) == 0 && KEPT(t) && t.told.stage == stage && t.told.fail == fail
        && t.told.role == role && t.told.method == m && session_is(a);
}

static int no_state(const side *a, uint64_t len)
{
    LEND(castulfrisa_progress, t);
    return castulfrisa_state(a->exchange, len, &t.told) == CASTULFRISA_NOT_DUE && ZERO(t) && no_session_id(a, len);
}

/* Whether some four bytes of K or of H stand one behind another in an exchange, ahead of what it keeps of the session. */
static int holds(const side *a, const uint8_t *secret, size_t from, size_t len)
{
    size_t i, j;
    for (i = 0; i + 4 <= SESSION_AT; i++)
        for (j = from; j + 4 <= len; j++)
            if (memcmp(a->exchange + i, secret + j, 4) == 0) return 1;
    return 0;
}

static int holds_k(const side *a) { return holds(a, k, 5, k_len); }
static int holds_h(const side *a) { return holds(a, h_due, 0, z.digest_len); }

static int k_is_out(void) { return memcmp(k_out, k, CASTULFRISA_K) == 0 && k_out[CASTULFRISA_K] == FILL; }

static int refusal_told(size_t i) { return told_nothing(calls[i].numbers, calls[i].make == take_secret); }

/* Every call but those that are due is answered 1, and nothing changes. */
static void answered_1(side *a, uint64_t e, uint64_t r, call due, const char *what)
{
    size_t i;
    for (i = 0; i < COUNT(calls); i++)
        if (calls[i].due != due) {
            before(a);
            is(calls[i].make(a, e, r) == CASTULFRISA_NOT_DUE && refusal_told(i) && same(a), what);
        }
}

/* What an exchange keeps of its session, written over: the identifier's length and how many exchanges were completed. Whether the two go together,
   so that the identifier can be told; and whether the exchange fits while it runs, and when it is complete. */
static const struct { uint64_t id_len, completed; int told, runs, complete; } sessions[] = {
    {0, 0, 1, 1, 0}, {1, 0, 0, 0, 0}, {32, 0, 0, 0, 0}, {64, 0, 0, 0, 0}, {256, 0, 0, 0, 0},
    {0, 1, 0, 0, 0}, {1, 1, 0, 0, 0}, {31, 1, 0, 0, 0}, {33, 1, 0, 0, 0}, {47, 1, 0, 0, 0}, {49, 1, 0, 0, 0}, {63, 1, 0, 0, 0},
    {65, 1, 0, 0, 0}, {256, 1, 0, 0, 0}, {256 + 32, 1, 0, 0, 0}, {256 * 32, 1, 0, 0, 0}, {65535, 1, 0, 0, 0},
    {32, 1, 1, 1, 1}, {48, 1, 1, 1, 1}, {64, 1, 1, 1, 1}, {48, 256, 1, 1, 1}, {32, COUNT_MOST - 1, 1, 1, 1}, {32, COUNT_MOST, 1, 0, 1},
    {64, COUNT_MOST, 1, 0, 1}, {0, COUNT_MOST, 0, 0, 0}, {32, COUNT_MOST + 1, 1, 0, 0}, {64, COUNT_MOST + 2, 1, 0, 0},
    {48, (uint64_t)1 << 56, 1, 0, 0}, {32, UINT64_MAX, 1, 0, 0}, {0, COUNT_MOST + 1, 0, 0, 0}, {0, (uint64_t)1 << 56, 0, 0, 0}};

static void forge(side *a, uint64_t id_len, uint64_t count)
{
    size_t i;
    a->exchange[SESSION_AT] = (uint8_t)(id_len >> 8);
    a->exchange[SESSION_AT + 1] = (uint8_t)id_len;
    for (i = 0; i < 8; i++) a->exchange[COUNT_AT + i] = (uint8_t)(count >> (56 - 8 * i));
}

/* An identifier of somebody's making, which is not judged. */
static void forge_id(side *a)
{
    size_t i;
    for (i = 0; i < CASTULFRISA_H_SIZE; i++) a->exchange[ID_AT + i] = kept.id[i] = (uint8_t)(200 - i);
}

/* Where a step is due, in one exchange of each digest: it goes on where what was written fits, and the last step makes an identifier of H only of the
   first exchange; else every call is answered 1. */
static void forged(const side *a, call due)
{
    static side copy;
    const session stood = kept;
    size_t i;
    if (method != CASTULFRISA_CURVE25519_SHA256 && method != CASTULFRISA_CURVE448_SHA512 && method != CASTULFRISA_NISTP384_SHA384) return;
    for (i = 0; i < COUNT(sessions); i++) {
        copy = *a;
        forge(&copy, sessions[i].id_len, sessions[i].completed);
        forge_id(&copy);
        kept.id_len = sessions[i].id_len;
        kept.completed = sessions[i].completed;
        is(sessions[i].told ? session_is(&copy) : no_session_id(&copy, EX), "the session where its bytes were written over");
        if (!sessions[i].runs) answered_1(&copy, EX, ROOM, NULL, "1, what is kept of the session does not fit");
        else {
            is(due(&copy, EX, ROOM) == 0, "a step where what is kept of the session fits");
            if (due == verdict || due == sign) completed();
            is(session_is(&copy), "the session behind it");
        }
    }
    kept = stood;
}

/* Where a step is due: the others are not; 1 for an exchange of another length, and then 3 for a short room. */
static void only(side *a, call due)
{
    size_t i;
    answered_1(a, EX, ROOM, due, "1, not due");
    answered_1(a, EX, 0, due, "1, not due, ahead of 3");
    answered_1(a, EX - 1, ROOM, NULL, "1, an exchange a byte short");
    answered_1(a, EX + 1, ROOM, NULL, "1, an exchange a byte long");
    answered_1(a, 90, ROOM, NULL, "1, an exchange as long as an older one");
    answered_1(a, 154, ROOM, NULL, "1, an exchange as long as another older one");
    answered_1(a, 0, 0, NULL, "1, an exchange of no bytes, ahead of 3");
    is(no_state(a, EX - 1) && no_state(a, EX + 1) && no_state(a, 90) && no_state(a, 154) && no_state(a, 0),
       "1, the state in another number of bytes");
    for (i = 0; i < COUNT(calls); i++)
        if (calls[i].due == due) {
            before(a);
            is(calls[i].make(a, EX, ROOM - 1) == CASTULFRISA_SHORT_ROOM && refusal_told(i) && same(a), "3");
        }
    forged(a, due);
}

/* A call that is refused, and changes nothing. */
#define REFUSED(a, numbers, number, made, what) REFUSED_H(a, numbers, 0, number, made, what)
#define REFUSED_H(a, numbers, hands_h, number, made, what) do { \
    before(a); \
    is((made) == (number) && told_nothing(numbers, hands_h) && same(a), what); } while (0)

/* A call on a copy of a side, `at`, that is a peer's fault: the room is zeros, of the exchange role, method and number are left and what it keeps of
   the session, outputs stay, and it has ended for good. */
#define FAULT(a, role, numbers, number, made, what) FAULT_TOLD(a, role, told_nothing(numbers, 0), number, made, what)
#define FAULT_H(a, role, numbers, hands_h, number, made, what) FAULT_TOLD(a, role, told_nothing(numbers, hands_h), number, made, what)
#define FAULT_AT(a, role, numbers, position, number, made, what) FAULT_TOLD(a, role, told_position(numbers, position), number, made, what)
#define FAULT_TOLD(a, role, as_due, number, made, what) do { \
    static side copy; \
    side *at = &copy; \
    copy = *(a); \
    before(at); \
    is((made) == (number) && as_due, what); \
    faulted(at, role, number, what); } while (0)

static void faulted(side *a, uint64_t role, uint64_t number, const char *what)
{
    is(all(a->room, 0, ROOM) && a->room[ROOM] == FILL && state_is(a, CASTULFRISA_FAILED, number, role, method), what);
    is(all(a->exchange + LENGTHS_AT, 0, SESSION_AT - LENGTHS_AT), "no length, no K and no H in a failed exchange");
    is(memcmp(a->exchange + SESSION_AT, was.exchange + SESSION_AT, sizeof was.exchange - SESSION_AT) == 0, "and the session as it was");
    answered_1(a, EX, ROOM, NULL, "1, failed for good");
}

/* ---- the steps, one by one */

/* A started exchange, in buffers that held something else: no K, no H and nothing of a session are in it. */
static void started(side *a, uint64_t role)
{
    opening o = right_opening(role);
    memset(a, FILL, sizeof *a);
    no_session();
    is(start(a, &o) == 0 && state_is(a, CASTULFRISA_STARTED, 0, role, method), "start");
    is(all(a->exchange + K_AT, 0, EX - K_AT), "and no K, no H and no session");
    is(memcmp(a->room, hashed, started_len) == 0, "the four strings in the room");
    is(all(a->room + started_len, FILL, sizeof a->room - started_len) && a->exchange[EX] == FILL, "and the rest as it was");
}

static void secret_refused(side *a, uint64_t role)
{
    static const uint8_t zero[CASTULFRISA_X_MOST] = {0};
    static const uint64_t no_kem[] = {3, 255, 256, 256 + 1, 256 + 2, WIDE, WIDE + 1, WIDE + 2, UINT64_MAX}, no[] = {0, 2, 255, WIDE + 1};
    static side copy;
    outcome o;
    size_t i;
#define WRONG(change, what) do { \
    o = right_outcome(); \
    change; \
    REFUSED_H(a, 1, 1, CASTULFRISA_BAD_INPUT, give(a, EX, ROOM, &o), what); } while (0)
#define ENDS(change, number, what) do { \
    o = right_outcome(); \
    change; \
    FAULT_H(a, role, 1, 1, number, give(at, EX, ROOM, &o), what); } while (0)

    WRONG(o.x_count--, "4, the primitive gave less than is lent");
    WRONG(o.x_count += WIDE, "4, a wide count of X");
    WRONG(o.x_len--, "4, less lent than the primitive gave");
    WRONG((o.x_count++, o.x_len++), "4, X too long");
    WRONG((o.x_count--, o.x_len--), "4, X too short");
    WRONG((o.x_count = o.x_len = 0, o.x = NULL), "4, no X");
    WRONG(o.k_pq_len++, "4, K_PQ too long");
    for (i = 0; i < COUNT(no_kem); i++) WRONG(o.kem = no_kem[i], "4, no outcome of a KEM");
    if (z.hybrid) {
        WRONG(o.kem = CASTULFRISA_KEM_ABSENT, "4, no KEM in a hybrid");
        WRONG((o.kem = CASTULFRISA_KEM_ABSENT, o.k_pq_len = 0), "4, no KEM in a hybrid, and no K_PQ");
        WRONG(o.k_pq_len--, "4, K_PQ too short");
        WRONG(o.k_pq_len = 0, "4, no K_PQ where the KEM is done");
        WRONG((o.given = 0, o.k_pq_len = 0), "4, no K_PQ where the KEM is done and the classical primitive failed");
        WRONG(o.kem = CASTULFRISA_KEM_FAILED, "4, K_PQ where the KEM failed");
        WRONG((o.given = 0, o.kem = CASTULFRISA_KEM_FAILED), "4, K_PQ where both failed");
        ENDS((o.kem = CASTULFRISA_KEM_FAILED, o.k_pq_len = 0), CASTULFRISA_KEM, "17");
        ENDS((o.given = 0, o.kem = CASTULFRISA_KEM_FAILED, o.k_pq_len = 0), CASTULFRISA_CLASSICAL, "16 ahead of 17");
    } else {
        WRONG(o.kem = CASTULFRISA_KEM_FAILED, "4, a KEM where there is none");
        WRONG(o.kem = CASTULFRISA_KEM_DONE, "4, a KEM where there is none");
        WRONG((o.kem = CASTULFRISA_KEM_DONE, o.k_pq_len = CASTULFRISA_K_PQ_SIZE), "4, a KEM and K_PQ where there is none");
        WRONG(o.k_pq_len = CASTULFRISA_K_PQ_SIZE, "4, K_PQ where there is no KEM");
    }
    if (role == CASTULFRISA_SERVER) {
        WRONG((o.ks = NULL, o.ks_len = 0), "4, no K_S");
        WRONG(o.ks_len = CASTULFRISA_BLOB_MOST + 1, "4, K_S too long");
        WRONG(o.s_len--, "4, S too short");
        WRONG(o.s_len++, "4, S too long");
        s[z.s_classical] = 5;
        if (is_nist()) WRONG((void)0, "4, S does not begin with 4");
        s[z.s_classical] = 4;
    }
#undef WRONG

    /* every number but 1 says that the primitive failed, and X is not looked at; K_PQ goes by the KEM alone */
    for (i = 0; i < COUNT(no); i++)
        ENDS((o.given = no[i], o.x_count = WIDE, o.x = NULL, o.x_len = 0), CASTULFRISA_CLASSICAL, "16");
    if (z.zero_check) ENDS(o.x = zero, CASTULFRISA_CLASSICAL, "16, X zero");
    else {
        o = right_outcome();
        o.x = zero;
        copy = *a;
        is(give(&copy, EX, ROOM, &o) == 0 && state_is(&copy, CASTULFRISA_SECRET_DONE, 0, role, method), "a zero X where it is not refused");
        is(memcmp(h, h_due, sizeof h_due) != 0, "and another H");
    }
#undef ENDS
}

/* H is of the bytes that stand in the room, also of those that somebody wrote there in between. */
static void secret_of_what_stands(const side *a)
{
    static side copy;
    uint8_t digest[CASTULFRISA_H_SIZE];
    copy = *a;
    copy.room[started_len - 1] ^= 1;
    is(take_secret(&copy, EX, ROOM) == 0 && told[0] == hashed_len, "a room that was written to");
    hash_of(copy.room, hashed_len, NULL, 0, digest);
    is(memcmp(h, digest, sizeof digest) == 0 && memcmp(h, h_due, sizeof h_due) != 0, "H of what stands there");
}

static void secret_taken(side *a, uint64_t role)
{
    only(a, take_secret);
    secret_refused(a, role);
    secret_of_what_stands(a);
    before(a);
    is(take_secret(a, EX, ROOM) == 0 && told[0] == hashed_len && numbers_told(1), "the secret, and the hash input's length");
    is(memcmp(a->room, hashed, hashed_len) == 0, "the hash input");
    is(memcmp(h, h_due, sizeof h_due) == 0 && h[CASTULFRISA_H_SIZE] == FILL, "H");
    is(all(h + z.digest_len, 0, CASTULFRISA_H_SIZE - z.digest_len) && !all(h, 0, z.digest_len), "zeros after its digest");
    is(memcmp(a->room + hashed_len, was.room + hashed_len, sizeof was.room - hashed_len) == 0, "the room behind it");
    is(state_is(a, CASTULFRISA_SECRET_DONE, 0, role, method) && a->exchange[EX] == FILL, "the state behind the secret");
    is(holds_k(a) && holds_h(a), "K and H in the exchange");
}

/* ---- keys */

/* RFC 4253, section 7.2, by hashes of K, H, the session's identifier and what came before: the longest key that is derived. */
static void key_by_hand(uint64_t letter, uint8_t due[CASTULFRISA_KEY_MOST + CASTULFRISA_H_SIZE])
{
    uint8_t ahead[CASTULFRISA_K + CASTULFRISA_H_SIZE], behind[1 + CASTULFRISA_H_SIZE];
    uint64_t made;
    memcpy(ahead, k, k_len);
    memcpy(ahead + k_len, h_due, z.digest_len);
    behind[0] = (uint8_t)letter;
    memcpy(behind + 1, kept.id, kept.id_len);
    hash_of(ahead, k_len + z.digest_len, behind, 1 + kept.id_len, due);
    for (made = z.digest_len; made < CASTULFRISA_KEY_MOST; made += z.digest_len)
        hash_of(ahead, k_len + z.digest_len, due, made, due + made);
}

#define DERIVE(letter, length, len) castulfrisa_derive(a->exchange, EX, letter, length, key, len)

static void keys_refused(side *a)
{
    static const uint64_t no_letter[] = {0, 1, 64, 71, 97, 102, 255, 256 + 65, 256 + 70, WIDE + 65, UINT64_MAX - 190, UINT64_MAX};
    static const uint64_t no_length[] = {0, 129, 255, 256, 256 + 16, WIDE, WIDE + 16, UINT64_MAX};
    uint64_t letter, length;
    size_t i;
    for (i = 0; i < COUNT(no_letter); i++) {
        REFUSED(a, 0, CASTULFRISA_BAD_INPUT, DERIVE(no_letter[i], 16, 16), "4, no letter");
        REFUSED(a, 0, CASTULFRISA_BAD_INPUT, DERIVE(no_letter[i], 16, 0), "4, no letter, ahead of 5");
    }
    for (i = 0; i < COUNT(no_length); i++) {
        REFUSED(a, 0, CASTULFRISA_BAD_INPUT, DERIVE(CASTULFRISA_IV_S2C, no_length[i], CASTULFRISA_KEY_MOST), "4, no length");
        REFUSED(a, 0, CASTULFRISA_BAD_INPUT, castulfrisa_derive(a->exchange, EX, CASTULFRISA_IV_S2C, no_length[i], out, sizeof out),
                "4, no length, in a long output");
        REFUSED(a, 0, CASTULFRISA_BAD_INPUT, DERIVE(no_letter[i], no_length[i], 0), "4, no letter and no length, ahead of 5");
    }
    for (letter = CASTULFRISA_IV_C2S; letter <= CASTULFRISA_MAC_KEY_S2C; letter++)
        for (length = 1; length <= CASTULFRISA_KEY_MOST; length += 31)
            REFUSED(a, 0, CASTULFRISA_SHORT_OUTPUT, DERIVE(letter, length, length - 1), "5, a key");
    REFUSED(a, 0, CASTULFRISA_SHORT_OUTPUT, castulfrisa_derive(a->exchange, EX, CASTULFRISA_IV_C2S, 16, NULL, 0), "5, no output");
}

/* What is no complete exchange: 1 for a key, ahead of 4 and 5, and for another beginning, ahead of 2, 3 and 4. */
static void not_complete(side *a, const char *what)
{
    REFUSED(a, 0, CASTULFRISA_NOT_DUE, derive(a, EX, 0), what);
    REFUSED(a, 0, CASTULFRISA_NOT_DUE, castulfrisa_derive(a->exchange, EX, 0, 0, key, 0), "1, a key, ahead of 4 and 5");
    REFUSED(a, 0, CASTULFRISA_NOT_DUE, again(a, EX, ROOM), what);
    REFUSED(a, 0, CASTULFRISA_NOT_DUE, castulfrisa_again(a->exchange, EX, a->room, 0, 0, NULL, 0, NULL, 0), "1, again, ahead of 2, 3 and 4");
}

/* A complete exchange with one thing of it that does not fit. */
static void complete_that_do_not_fit(const side *a)
{
    /* the mark, the stage, the number that ended it, the role, the method; the seven lengths, and K's, by their high bytes; the identifier's length;
       the count by a high byte */
    static const uint8_t spoiled[][2] = {{0, 0}, {0, 1}, {0, 2}, {0, 4}, {1, 4}, {1, 6}, {1, 7}, {2, 1}, {2, 18}, {3, 0}, {3, 3}, {3, 255}, {4, 0},
                                         {4, 10}, {4, 255}, {5, 1}, {7, 1}, {9, 17}, {11, 17}, {13, 9}, {15, 16}, {17, 16}, {19, 1}, {20, 1}, {21, 1},
                                         {SESSION_AT, 1}, {SESSION_AT + 1, 0}, {SESSION_AT + 1, 33}, {COUNT_AT, 1}, {COUNT_AT + 3, 1}};
    static side copy;
    size_t i;
    copy = *a;
    for (i = 0; i < COUNT(spoiled); i++) {
        copy.exchange[spoiled[i][0]] = spoiled[i][1];
        not_complete(&copy, "1, a complete exchange that does not fit");
        copy.exchange[spoiled[i][0]] = a->exchange[spoiled[i][0]];
    }
    castulfrisa_wipe(copy.exchange, EX);
    not_complete(&copy, "1, a wiped exchange");
}

/* A complete exchange where what it keeps of the session was written over: a key is made with the identifier that stands there, by its own
   length, where the two numbers fit. */
static void keys_of_forged_sessions(const side *a)
{
    static side copy;
    const session stood = kept;
    uint8_t due[CASTULFRISA_KEY_MOST + CASTULFRISA_H_SIZE];
    size_t i;
    for (i = 0; i < COUNT(sessions); i++) {
        copy = *a;
        forge(&copy, sessions[i].id_len, sessions[i].completed);
        forge_id(&copy);
        kept.id_len = sessions[i].id_len;
        kept.completed = sessions[i].completed;
        is(sessions[i].told ? session_is(&copy) : no_session_id(&copy, EX), "a complete session where its bytes were written over");
        if (!sessions[i].complete) not_complete(&copy, "1, what is kept of the session does not fit a complete exchange");
        else {
            before(&copy);
            key_by_hand(CASTULFRISA_MAC_KEY_S2C, due);
            is(castulfrisa_derive(copy.exchange, EX, CASTULFRISA_MAC_KEY_S2C, sizeof key - 1, key, sizeof key - 1) == 0
               && memcmp(key, due, sizeof key - 1) == 0 && same(&copy), "a key by the identifier that stands there");
        }
    }
    kept = stood;
}

/* Every key of a complete exchange: the exchange is only read, and the room is not lent. */
static void keys(side *a)
{
    uint8_t due[CASTULFRISA_KEY_MOST + CASTULFRISA_H_SIZE];
    uint64_t letter, length;
    answered_1(a, EX, ROOM, derive, "1, complete");
    keys_refused(a);
    complete_that_do_not_fit(a);
    keys_of_forged_sessions(a);
    for (letter = CASTULFRISA_IV_C2S; letter <= CASTULFRISA_MAC_KEY_S2C; letter++) {
        key_by_hand(letter, due);
        for (length = 1; length <= CASTULFRISA_KEY_MOST; length++) {
            before(a);
            is(DERIVE(letter, length, length) == 0 && memcmp(key, due, length) == 0 && same(a), "a key");
            is(all(key + length, FILL, sizeof key - length), "and nothing behind it");
        }
        before(a);
        is(DERIVE(letter, 20, sizeof key) == 0 && memcmp(key, due, 20) == 0 && all(key + 20, FILL, sizeof key - 20), "a key in a longer output");
    }
}

#undef DERIVE

static void c_sent(side *a)
{
    only(a, own_c);
#define OWN_C(at_c, len, out_len) castulfrisa_own_c(a->exchange, EX, a->room, ROOM, at_c, len, out, out_len, told)
    REFUSED(a, 1, CASTULFRISA_BAD_INPUT, OWN_C(c, z.c_len - 1, CASTULFRISA_INIT), "4, C too short");
    REFUSED(a, 1, CASTULFRISA_BAD_INPUT, OWN_C(c, z.c_len + 1, CASTULFRISA_INIT), "4, C too long");
    REFUSED(a, 1, CASTULFRISA_BAD_INPUT, OWN_C(NULL, 0, CASTULFRISA_INIT), "4, no C");
    c[z.c_classical] = 5;
    if (is_nist()) REFUSED(a, 1, CASTULFRISA_BAD_INPUT, OWN_C(c, z.c_len, CASTULFRISA_INIT), "4, C does not begin with 4");
    c[z.c_classical] = 4;
    REFUSED(a, 1, CASTULFRISA_SHORT_OUTPUT, OWN_C(c, z.c_len, CASTULFRISA_INIT - 1), "5, INIT");
#undef OWN_C
    before(a);
    is(own_c(a, EX, ROOM) == 0 && told[0] == init_len && numbers_told(1), "own C");
    is(memcmp(out, init, init_len) == 0 && all(out + init_len, FILL, sizeof out - init_len), "INIT, and nothing behind it");
    is(state_is(a, CASTULFRISA_C_SENT, 0, CASTULFRISA_CLIENT, method), "C sent");
}

static void reply_read(side *a)
{
    LEND(castulfrisa_reply, r);
    only(a, read_reply);
    before(a);
    is(reply_host_key(a, EX, ROOM) == 0 && told[0] == 5 && told[1] == ks_len && numbers_told(2), "K_S's place");
    is(reply_s(a, EX, ROOM) == 0 && told[0] == 9 + ks_len && told[1] == z.s_len && numbers_told(2), "S's place");
    is(reply_signature(a, EX, ROOM) == 0 && told[0] == 13 + ks_len + z.s_len && told[1] == signature_len && numbers_told(2),
       "the signature's place");
    is(same(a), "telling changes nothing");
    is(castulfrisa_read_reply(a->exchange, EX, a->room, ROOM, reply, reply_len, &r.told) == 0 && KEPT(r), "REPLY read");
    is(part_is(r.told.host_key, 5, ks_len) && part_is(r.told.s, 9 + ks_len, z.s_len), "the places of K_S and S with the step");
    is(part_is(r.told.signature, 13 + ks_len + z.s_len, signature_len), "the signature's place with the step");
    is(r.told.position == 0, "no position in a REPLY that is one");
    is(state_is(a, CASTULFRISA_REPLY_READ, 0, CASTULFRISA_CLIENT, method), "the state behind REPLY");
    is(memcmp(a->room, hashed, hashed_len - k_len) == 0, "the fields ahead of K");
}

static void verdict_given(side *a)
{
    static const uint64_t no[][2] = {{0, 1}, {1, 0}, {0, 0}, {2, 1}, {1, 2}, {WIDE + 1, 1}, {1, WIDE + 1}, {UINT64_MAX, UINT64_MAX}};
    size_t i;
    only(a, verdict);
    REFUSED(a, 1, CASTULFRISA_SHORT_OUTPUT,
            castulfrisa_verdict(a->exchange, EX, a->room, ROOM, 1, 1, k_out, CASTULFRISA_K - 1, told), "5, K");
    for (i = 0; i < COUNT(no); i++)
        FAULT(a, CASTULFRISA_CLIENT, 1, CASTULFRISA_VERDICT,
              castulfrisa_verdict(at->exchange, EX, at->room, ROOM, no[i][0], no[i][1], k_out, CASTULFRISA_K, told), "18");
    before(a);
    is(verdict(a, EX, ROOM) == 0 && told[0] == k_len && numbers_told(1) && k_is_out(), "the verdict, and K");
    completed();
    is(same_room(a) && state_is(a, CASTULFRISA_COMPLETE, 0, CASTULFRISA_CLIENT, method), "a client complete");
    is(holds_k(a) && holds_h(a), "K and H in a client that is complete");
    keys(a);
}

static void init_read(side *a)
{
    LEND(castulfrisa_init, r);
    only(a, read_init);
    before(a);
    is(init_c(a, EX, ROOM) == 0 && told[0] == 5 && told[1] == z.c_len && numbers_told(2) && same(a), "C's place, and nothing changed");
    is(castulfrisa_read_init(a->exchange, EX, a->room, ROOM, init, init_len, &r.told) == 0 && KEPT(r), "INIT read");
    is(part_is(r.told.c, 5, z.c_len) && r.told.position == 0, "C's place with the step, and no position in an INIT that is one");
    is(state_is(a, CASTULFRISA_INIT_READ, 0, CASTULFRISA_SERVER, method), "the state behind INIT");
}

static void reply_signed(side *a)
{
    castulfrisa_signed g;
    only(a, sign);
#define SIGN(len, out_len, k_out_len) \
    castulfrisa_sign(a->exchange, EX, a->room, ROOM, signature, len, out, out_len, k_out, k_out_len, (castulfrisa_signed *)told)
    REFUSED(a, 2, CASTULFRISA_BAD_INPUT, SIGN(0, CASTULFRISA_REPLY, CASTULFRISA_K), "4, no signature");
    REFUSED(a, 2, CASTULFRISA_BAD_INPUT, SIGN(CASTULFRISA_BLOB_MOST + 1, CASTULFRISA_REPLY, CASTULFRISA_K), "4, signature too long");
    REFUSED(a, 2, CASTULFRISA_SHORT_OUTPUT, SIGN(signature_len, CASTULFRISA_REPLY - 1, CASTULFRISA_K), "5, REPLY");
    REFUSED(a, 2, CASTULFRISA_SHORT_OUTPUT, SIGN(signature_len, CASTULFRISA_REPLY, CASTULFRISA_K - 1), "5, a server's K");
#undef SIGN
    before(a);
    is(castulfrisa_sign(a->exchange, EX, a->room, ROOM, signature, signature_len, out, CASTULFRISA_REPLY, k_out, CASTULFRISA_K, &g) == 0,
       "the signature");
    completed();
    is(g.reply == reply_len && g.k == k_len && k_is_out(), "its counts, and K");
    is(memcmp(out, reply, reply_len) == 0 && all(out + reply_len, FILL, sizeof out - reply_len), "REPLY, and nothing behind it");
    is(same_room(a) && state_is(a, CASTULFRISA_COMPLETE, 0, CASTULFRISA_SERVER, method), "a server complete");
    is(holds_k(a) && holds_h(a), "K and H in a server that is complete");
    keys(a);
}

/* ---- the next exchange of a session */

/* An exchange with every step of its role, and nothing tried on the way. */
static void stepped(side *a, uint64_t role)
{
    before(a);
    if (role == CASTULFRISA_CLIENT)
        is(own_c(a, EX, ROOM) == 0 && read_reply(a, EX, ROOM) == 0 && take_secret(a, EX, ROOM) == 0 && verdict(a, EX, ROOM) == 0, "a client's steps");
    else is(read_init(a, EX, ROOM) == 0 && take_secret(a, EX, ROOM) == 0 && sign(a, EX, ROOM) == 0, "a server's steps");
    completed();
    is(state_is(a, CASTULFRISA_COMPLETE, 0, role, method) && memcmp(h, h_due, sizeof h_due) == 0 && k_is_out(), "an exchange complete, H and K");
}

/* It has begun: the V's where they stood, the new I's behind them and nothing else changed in the room; role and method, four lengths, no K, no H, and the
   session as it was. */
static void begun(side *a, uint64_t role)
{
    const uint64_t lengths[] = {v_c_len, v_s_len, i_c_len, i_s_len, 0, 0, 0};
    size_t i;
    before(a);
    is(again(a, EX, ROOM) == 0 && told_nothing(0, 0) && state_is(a, CASTULFRISA_STARTED, 0, role, method), "begun again");
    is(memcmp(a->room, hashed, started_len) == 0, "the V's, and the new I's behind them");
    is(memcmp(a->room + started_len, was.room + started_len, sizeof was.room - started_len) == 0, "the room behind them as it was");
    for (i = 0; i < COUNT(lengths); i++)
        is(a->exchange[LENGTHS_AT + 2 * i] == lengths[i] >> 8 && a->exchange[LENGTHS_AT + 2 * i + 1] == (lengths[i] & 255), "the lengths so far");
    is(all(a->exchange + K_AT, 0, SESSION_AT - K_AT), "no K and no H");
    is(memcmp(a->exchange + SESSION_AT, was.exchange + SESSION_AT, sizeof was.exchange - SESSION_AT) == 0, "the session as it was");
}

/* What `again` is handed beside exchange and room: the right inputs, of which a test changes one. */
typedef struct {
    uint64_t room_len, method;
    const uint8_t *i_c, *i_s;
    uint64_t i_c_len, i_s_len;
} beginning;

static uint64_t begin(side *a, const beginning *o)
{
    return castulfrisa_again(a->exchange, EX, a->room, o->room_len, o->method, o->i_c, o->i_c_len, o->i_s, o->i_s_len);
}

/* A complete exchange, refused another beginning, stays complete, and no byte of what is lent changes. Where the count is full every other cause comes
   first, and 23 with none. */
static void again_refused(side *a, uint64_t role, int full)
{
    static const uint64_t no_method[] = {0, 10, 255, 256, 256 + 1, WIDE + 1, UINT64_MAX}, no_room[] = {0, 1, ROOM - 1};
    static uint8_t other[CASTULFRISA_KEXINIT_MOST + 1], i_c_was[sizeof i_c], i_s_was[sizeof i_s];
    const beginning right = {ROOM, method, i_c, i_s, i_c_len, i_s_len};
    beginning o;
    size_t i;
#define WRONG(change, number, what) do { \
    o = right; \
    change; \
    REFUSED(a, 0, number, begin(a, &o), what); } while (0)

    memset(other, 20, sizeof other);
    other[0] = 21;
    memcpy(i_c_was, i_c, sizeof i_c);
    memcpy(i_s_was, i_s, sizeof i_s);
    for (i = 0; i < COUNT(no_method); i++) {
        WRONG(o.method = no_method[i], CASTULFRISA_NO_METHOD, "2, again");
        WRONG((o.method = no_method[i], o.room_len = 0, o.i_c_len = o.i_s_len = 0), CASTULFRISA_NO_METHOD, "2, again, ahead of 3 and 4");
    }
    for (i = 0; i < COUNT(no_room); i++) {
        WRONG(o.room_len = no_room[i], CASTULFRISA_SHORT_ROOM, "3, again");
        WRONG((o.room_len = no_room[i], o.i_c = o.i_s = other), CASTULFRISA_SHORT_ROOM, "3, again, ahead of 4");
    }
    WRONG((o.i_c = NULL, o.i_c_len = 0), CASTULFRISA_BAD_INPUT, "4, again with no I_C");
    WRONG(o.i_c_len = CASTULFRISA_KEXINIT_MOST + 1, CASTULFRISA_BAD_INPUT, "4, again with I_C too long");
    WRONG(o.i_c = other, CASTULFRISA_BAD_INPUT, "4, again with an I_C that is no KEXINIT");
    WRONG((o.i_s = NULL, o.i_s_len = 0), CASTULFRISA_BAD_INPUT, "4, again with no I_S");
    WRONG(o.i_s_len = CASTULFRISA_KEXINIT_MOST + 1, CASTULFRISA_BAD_INPUT, "4, again with I_S too long");
    WRONG(o.i_s = other, CASTULFRISA_BAD_INPUT, "4, again with an I_S that is no KEXINIT");
    if (full) WRONG((void)0, CASTULFRISA_COUNT_FULL, "23");
#undef WRONG
    answered_1(a, EX - 1, ROOM, NULL, "1, a complete exchange a byte short");
    answered_1(a, EX + 1, ROOM, NULL, "1, a complete exchange a byte long");
    answered_1(a, 154, 0, NULL, "1, a complete exchange as long as an older one, ahead of 3");
    is(memcmp(i_c, i_c_was, sizeof i_c) == 0 && memcmp(i_s, i_s_was, sizeof i_s) == 0, "what was handed in stays");
    is(state_is(a, CASTULFRISA_COMPLETE, 0, role, right.method) && derive(a, EX, 0) == 0, "and the exchange is complete");
}

/* The last exchange that a session can complete, and none behind it. */
static void last_of_a_session(const side *a, uint64_t role)
{
    static side copy;
    const session stood = kept;
    copy = *a;
    kept.completed = COUNT_MOST - 1;
    forge(&copy, kept.id_len, kept.completed);
    begun(&copy, role);
    stepped(&copy, role);
    is(kept.completed == COUNT_MOST && session_is(&copy), "the last exchange of a session");
    again_refused(&copy, role, 1);
    kept = stood;
}

/* The V's are taken as they stand, judged neither by their bytes nor by their length bytes, and stay; the longest I's and the shortest are taken, in a
   room that is a byte longer than before. */
static void again_takes_what_stands(const side *a)
{
    static const uint64_t lens[] = {1, CASTULFRISA_KEXINIT_MOST};
    static side copy;
    const uint64_t v_len = 8 + v_c_len + v_s_len;
    uint8_t digest[CASTULFRISA_H_SIZE];
    size_t i;
    for (i = 0; i < COUNT(lens); i++) {
        beginning o = {ROOM + 1, method, i_c, i_s, lens[i], lens[COUNT(lens) - 1 - i]};
        copy = *a;
        memcpy(copy.room, "\xff\0\r\n\0\r\n", 7);
        memcpy(copy.room + 4 + v_c_len, "\xff\xff\xff\xff\n\0\r", 7);
        before(&copy);
        is(begin(&copy, &o) == 0 && memcmp(copy.room, was.room, v_len) == 0, "again with V's that are none, which stay");
        is(copy.room[v_len + 2] == o.i_c_len >> 8 && copy.room[v_len + 3] == (o.i_c_len & 255)
           && memcmp(copy.room + v_len + 4, i_c, o.i_c_len) == 0 && copy.room[v_len + 6 + o.i_c_len] == o.i_s_len >> 8
           && copy.room[v_len + 7 + o.i_c_len] == (o.i_s_len & 255) && memcmp(copy.room + v_len + 8 + o.i_c_len, i_s, o.i_s_len) == 0, "the I's");
        is(memcmp(copy.room + v_len + 8 + o.i_c_len + o.i_s_len, was.room + v_len + 8 + o.i_c_len + o.i_s_len,
                  sizeof was.room - v_len - 8 - o.i_c_len - o.i_s_len) == 0, "and the rest as it was");
        if (copy.exchange[3] == CASTULFRISA_CLIENT)
            is(own_c(&copy, EX, ROOM) == 0 && read_reply(&copy, EX, ROOM) == 0 && take_secret(&copy, EX, ROOM) == 0, "a client of what stands");
        else is(read_init(&copy, EX, ROOM) == 0 && take_secret(&copy, EX, ROOM) == 0, "a server of what stands");
        hash_of(copy.room, told[0], NULL, 0, digest);
        is(memcmp(copy.room, was.room, v_len) == 0 && memcmp(h, digest, sizeof digest) == 0, "H of the V's that stand there");
    }
}

/* All 64 bytes of the record's H become the identifier, also those behind the digest that somebody wrote there. */
static void identifier_is_what_stands(const side *a, call last)
{
    static side copy;
    if (kept.completed > 0) return;
    copy = *a;
    copy.exchange[H_AT + CASTULFRISA_H_SIZE - 1] ^= 0x5a;
    is(last(&copy, EX, ROOM) == 0, "the last step");
    completed();
    kept.id[CASTULFRISA_H_SIZE - 1] ^= 0x5a;
    is(session_is(&copy), "an identifier of what stands in the record");
    no_session();
}

/* A start in a complete exchange's bytes begins another session, refused too. */
static void starts_forget(const side *a, uint64_t role)
{
    static side copy;
    const session stood = kept;
    opening o = right_opening(role);
    no_session();
    copy = *a;
    is(start(&copy, &o) == 0 && state_is(&copy, CASTULFRISA_STARTED, 0, role, method), "a start where a session was");
    is(all(copy.exchange + K_AT, 0, EX - K_AT), "and nothing of it is left");
    copy = *a;
    o.v_c_len = 0;
    is(start(&copy, &o) == CASTULFRISA_BAD_INPUT && state_is(&copy, CASTULFRISA_FAILED, CASTULFRISA_BAD_INPUT, 0, 0), "a refused one");
    is(all(copy.exchange + LENGTHS_AT, 0, EX - LENGTHS_AT), "and nothing of it is left");
    kept = stood;
}

/* ---- what is refused at the start, what ends an exchange, and what is none */

/* A live exchange stands where the start is refused: it is gone, and the room stays. */
static void start_refused(const opening *o, uint64_t number, const char *what)
{
    side *a = &client;
    started(a, CASTULFRISA_CLIENT);
    before(a);
    is(start(a, o) == number && same_room(a) && a->exchange[EX] == FILL, what);
    is(state_is(a, CASTULFRISA_FAILED, number, 0, 0), what);
    answered_1(a, EX, ROOM, NULL, "1, a refused start");
}

static void starts_refused(void)
{
    static const uint64_t no_role[] = {0, 3, 255, 256 + 1, WIDE + 1, WIDE + 2, UINT64_MAX};
    static const uint64_t no_method[] = {0, 10, 255, 256, 256 + 1, WIDE + 1, UINT64_MAX};
    opening o;
    uint64_t e;
    size_t i;
#define WRONG(change, number, what) do { \
    o = right_opening(CASTULFRISA_CLIENT); \
    change; \
    start_refused(&o, number, what); } while (0)

    for (i = 0; i < COUNT(no_role); i++) WRONG(o.role = no_role[i], CASTULFRISA_NO_METHOD, "2, no role");
    for (i = 0; i < COUNT(no_method); i++) WRONG(o.method = no_method[i], CASTULFRISA_NO_METHOD, "2, no method");
    WRONG(o.room_len--, CASTULFRISA_SHORT_ROOM, "3, a start");
    WRONG((o.v_c = NULL, o.v_c_len = 0), CASTULFRISA_BAD_INPUT, "4, no V_C");
    WRONG(o.v_c_len = CASTULFRISA_V_MOST + 1, CASTULFRISA_BAD_INPUT, "4, V_C too long");
    WRONG((o.v_c = b("a\rb"), o.v_c_len = 3), CASTULFRISA_BAD_INPUT, "4, V_C with a 13");
    WRONG((o.v_c = b("a\nb"), o.v_c_len = 3), CASTULFRISA_BAD_INPUT, "4, V_C with a 10");
    WRONG((o.v_s = NULL, o.v_s_len = 0), CASTULFRISA_BAD_INPUT, "4, no V_S");
    WRONG(o.v_s_len = CASTULFRISA_V_MOST + 1, CASTULFRISA_BAD_INPUT, "4, V_S too long");
    WRONG((o.v_s = b("a\0b"), o.v_s_len = 3), CASTULFRISA_BAD_INPUT, "4, V_S with a 0");
    WRONG(o.i_c_len = 0, CASTULFRISA_BAD_INPUT, "4, no I_C");
    WRONG(o.i_c_len = CASTULFRISA_KEXINIT_MOST + 1, CASTULFRISA_BAD_INPUT, "4, I_C too long");
    WRONG(o.i_s_len = 0, CASTULFRISA_BAD_INPUT, "4, no I_S");
    WRONG(o.i_s_len = CASTULFRISA_KEXINIT_MOST + 1, CASTULFRISA_BAD_INPUT, "4, I_S too long");
#undef WRONG

    for (e = EX - 1; e <= EX + 1; e += 2) {
        started(&client, CASTULFRISA_CLIENT);
        o = right_opening(CASTULFRISA_CLIENT);
        o.exchange_len = e;
        REFUSED(&client, 0, CASTULFRISA_NOT_DUE, start(&client, &o), "1, a start in a byte less or more");
        o.role = o.room_len = o.v_c_len = 0;
        REFUSED(&client, 0, CASTULFRISA_NOT_DUE, start(&client, &o), "1, a start in a byte less or more, ahead of 2, 3 and 4");
    }
    o = right_opening(CASTULFRISA_CLIENT);
    o.v_c_len = o.v_s_len = CASTULFRISA_V_MOST;
    o.i_c_len = o.i_s_len = CASTULFRISA_KEXINIT_MOST;
    is(start(&client, &o) == 0, "the longest four");
}

/* A start whose I_C or I_S is no KEXINIT: it must begin with 20. */
static void no_kexinit(uint8_t *payload)
{
    opening o = right_opening(CASTULFRISA_CLIENT);
    side *a = &client;
    started(a, CASTULFRISA_CLIENT);
    payload[0] = 21;
    is(start(a, &o) == CASTULFRISA_BAD_INPUT && state_is(a, CASTULFRISA_FAILED, CASTULFRISA_BAD_INPUT, 0, 0), "4, no KEXINIT");
    payload[0] = 20;
}

/* Payloads that are no INIT or REPLY: whole but for one thing. Their value is a NIST curve's, so that there is a first byte to spoil. */
static void peers_faults(void)
{
    static const uint64_t want[] = {CASTULFRISA_PAYLOAD_SIZE, CASTULFRISA_PAYLOAD_SIZE, CASTULFRISA_MESSAGE, CASTULFRISA_PAST_END,
                                    CASTULFRISA_LEFT_OVER, CASTULFRISA_FIELD_LENGTH, CASTULFRISA_LEAD_BYTE};
    enum { NONE, LONG, OTHER, CUT, MORE, LENGTH, LEAD };
    static uint8_t p[CASTULFRISA_PAYLOAD_MOST + 1];
    const uint64_t s_at = 5 + ks_len; /* S's four length bytes in REPLY */
    uint64_t n;
    size_t i;
    castulfrisa_part *part = (castulfrisa_part *)told;

    for (i = 0; i < COUNT(want); i++) {
        memset(p, 0, sizeof p);
        memcpy(p, init, init_len);
        if (i == OTHER) p[0] = 31;
        if (i == LENGTH) p[4]++;
        if (i == LEAD) p[5 + z.c_classical] = 5;
        n = i == NONE ? 0 : i == LONG ? sizeof p : i == CUT ? init_len - 1 : i == MORE || i == LENGTH ? init_len + 1 : init_len;
        REFUSED(&server, 2, want[i], castulfrisa_init_c(server.exchange, EX, server.room, ROOM, p, n, part), "10 to 15, C told");
        FAULT_AT(&server, CASTULFRISA_SERVER, 3, i == CUT ? 1 : i == MORE ? init_len : 0, want[i],
                 castulfrisa_read_init(at->exchange, EX, at->room, ROOM, p, n, (castulfrisa_init *)told), "10 to 15, INIT");
    }
    for (i = 0; i < COUNT(want); i++) {
        memset(p, 0, sizeof p);
        memcpy(p, reply, reply_len);
        if (i == OTHER) p[0] = 30;
        if (i == LENGTH) {
            p[s_at + 3]++;
            memcpy(p + s_at + 5 + z.s_len, reply + s_at + 4 + z.s_len, 4 + signature_len);
        }
        if (i == LEAD) p[s_at + 4 + z.s_classical] = 5;
        n = i == NONE ? 0 : i == LONG ? sizeof p : i == CUT ? reply_len - 1 : i == MORE || i == LENGTH ? reply_len + 1 : reply_len;
        REFUSED(&client, 2, want[i], castulfrisa_reply_host_key(client.exchange, EX, client.room, ROOM, p, n, part), "10 to 15, K_S told");
        REFUSED(&client, 2, want[i], castulfrisa_reply_s(client.exchange, EX, client.room, ROOM, p, n, part), "10 to 15, S told");
        REFUSED(&client, 2, want[i], castulfrisa_reply_signature(client.exchange, EX, client.room, ROOM, p, n, part),
                "10 to 15, the signature told");
        FAULT_AT(&client, CASTULFRISA_CLIENT, 7, i == CUT ? s_at + 4 + z.s_len : i == MORE ? reply_len : 0, want[i],
                 castulfrisa_read_reply(at->exchange, EX, at->room, ROOM, p, n, (castulfrisa_reply *)told), "10 to 15, REPLY");
    }
}

static uint64_t init_of(side *a, const uint8_t *p, uint64_t n)
{
    return castulfrisa_read_init(a->exchange, EX, a->room, ROOM, p, n, (castulfrisa_init *)told);
}

static uint64_t reply_of(side *a, const uint8_t *p, uint64_t n)
{
    return castulfrisa_read_reply(a->exchange, EX, a->room, ROOM, p, n, (castulfrisa_reply *)told);
}

/* A message of so many fields cut everywhere, but of a hybrid's value only here and there, whole, and with one byte too many. begins: where its fields
   do, and behind the last the message's own end. */
static void broken(const side *a, uint64_t role, uint64_t (*read)(side *a, const uint8_t *p, uint64_t n), const uint8_t *message,
                   const uint64_t *begins, const char *const *names, size_t fields)
{
    static uint8_t p[CASTULFRISA_REPLY + 1];
    static side copy;
    const uint64_t len = begins[fields];
    uint64_t n, number;
    size_t f, numbers = 2 * fields + 1;
    memset(p, 0, sizeof p);
    memcpy(p, message, len);
    for (n = 0; n <= len + 1; n += n > 200 && n + 150 < len ? 113 : 1) {
        for (f = 0; f < fields && begins[f + 1] <= n; f++) {} /* the first that passes the end, if there is one */
        number = n == 0 ? CASTULFRISA_PAYLOAD_SIZE : f < fields ? CASTULFRISA_PAST_END : n == len ? CASTULFRISA_OK : CASTULFRISA_LEFT_OVER;
        copy = *a;
        before(&copy);
        is(read(&copy, p, n) == number && numbers_told(numbers), "a message cut, whole, and with a byte too many");
        is(told[numbers - 1] == (n == 0 || n == len ? 0 : begins[f]), "where it breaks");
        if (n == len) continue;
        is(told_position(numbers, told[numbers - 1]), "and nothing else is told");
        is(all(copy.room, 0, ROOM) && state_is(&copy, CASTULFRISA_FAILED, number, role, method), "the fault");
        is(n == 0 || strcmp(castulfrisa_field(p, n, begins[f]), f < fields ? names[f] : "bytes left over") == 0, "the field's name");
    }
}

static void broken_messages(void)
{
    static const char *const of_init[] = {"C"}, *const of_reply[] = {"K_S", "S", "signature"};
    const uint64_t init_at[] = {1, init_len}, reply_at[] = {1, 5 + ks_len, 9 + ks_len + z.s_len, reply_len};
    started(&server, CASTULFRISA_SERVER);
    broken(&server, CASTULFRISA_SERVER, init_of, init, init_at, of_init, 1);
    started(&client, CASTULFRISA_CLIENT);
    is(own_c(&client, EX, ROOM) == 0, "a client that waits for REPLY");
    broken(&client, CASTULFRISA_CLIENT, reply_of, reply, reply_at, of_reply, 3);
}

/* A client behind its secret, one of its first bytes spoiled, then wiped: 1, and all stays. */
static void no_exchanges(void)
{
    /* the mark, the stage, the number that ended it, the role, the method */
    static const uint8_t spoiled[][2] = {{0, 0}, {0, 1}, {0, 2}, {0, 4}, {0, 255}, {1, 7}, {1, 255}, {2, 1}, {2, 18}, {3, 0}, {3, 3}, {3, 255},
                                         {4, 0}, {4, 10}, {4, 255}};
    static side whole;
    side *a = &client;
    size_t i;

    started(a, CASTULFRISA_CLIENT);
    is(own_c(a, EX, ROOM) == 0 && read_reply(a, EX, ROOM) == 0 && take_secret(a, EX, ROOM) == 0, "a client behind its secret");
    whole = *a;
    for (i = 0; i < COUNT(spoiled); i++) {
        *a = whole;
        a->exchange[spoiled[i][0]] = spoiled[i][1];
        answered_1(a, EX, ROOM, NULL, "1, one of the first bytes spoiled");
        if (spoiled[i][0] < 3) is(no_state(a, EX), "1, the state of what is no exchange");
    }
    *a = whole;
    castulfrisa_wipe(a->exchange, EX);
    is(all(a->exchange, 0, EX) && a->exchange[EX] == FILL, "a wiped exchange, and the byte behind it");
    is(no_state(a, EX), "1, the state of a wiped exchange");
    answered_1(a, EX, ROOM, NULL, "1, a wiped exchange");
    castulfrisa_wipe(a->room, ROOM);
    is(all(a->room, 0, ROOM) && a->room[ROOM] == FILL, "a wiped room, and the byte behind it");
    castulfrisa_wipe(NULL, 0);
    *a = whole;
    is(verdict(a, EX, ROOM) == 0, "and the whole one goes on");
}

/* Three exchanges of a session, the second by a method of another digest, the third by the first one's. */
static void night(side *a, uint64_t role, uint64_t first)
{
    static const uint64_t second[] = {3, 8, 8, 5, 6, 9, 6, 2, 5};
    unsigned number;
    for (number = 0; number < 3; number++) {
        material(number == 1 ? second[first - 1] : first, number);
        is(number != 1 || z.digest_len != kept.id_len, "another digest than the first one's");
        if (number == 0) started(a, role);
        else begun(a, role);
        if (number == 2) stepped(a, role);
        else if (role == CASTULFRISA_CLIENT) {
            c_sent(a);
            reply_read(a);
            secret_taken(a, role);
            identifier_is_what_stands(a, verdict);
            verdict_given(a);
        } else {
            init_read(a);
            secret_taken(a, role);
            identifier_is_what_stands(a, sign);
            reply_signed(a);
        }
        starts_forget(a, role);
        again_refused(a, role, 0);
        again_takes_what_stands(a);
        last_of_a_session(a, role);
        castulfrisa_wipe(a->room + 8 + v_c_len + v_s_len, ROOM - 8 - v_c_len - v_s_len); /* the next one needs the V's alone */
    }
}

/* Faults of messages, in a first exchange and in one that began again. */
static void faults(uint64_t m)
{
    unsigned number;
    material(m, 0);
    if (!is_nist()) return;
    started(&server, CASTULFRISA_SERVER);
    started(&client, CASTULFRISA_CLIENT);
    for (number = 0; number < 2; number++) {
        static side at_start;
        at_start = client;
        is(own_c(&client, EX, ROOM) == 0, "a client that waits for REPLY");
        peers_faults();
        if (number > 0) break;
        client = at_start;
        stepped(&client, CASTULFRISA_CLIENT);
        no_session();
        stepped(&server, CASTULFRISA_SERVER);
        material(m, 1);
        begun(&client, CASTULFRISA_CLIENT);
        begun(&server, CASTULFRISA_SERVER);
    }
}

void exchanges(void)
{
    uint64_t m;
    for (m = 1; m <= 9; m++) {
        night(&client, CASTULFRISA_CLIENT, m);
        night(&server, CASTULFRISA_SERVER, m);
        faults(m);
        material(m, 0);
        broken_messages();
    }
    material(CASTULFRISA_CURVE25519_SHA256, 0);
    starts_refused();
    no_kexinit(i_c);
    no_kexinit(i_s);
    no_exchanges();
    castulfrisa_wipe_stack(); /* what it does: stack_test.c */
    method = 0;
}
