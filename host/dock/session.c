/* Behind the first service, no more than it takes for data to go both ways while keys change: a login (RFC 4252) with a key or without any,
   and one session channel (RFC 4254). A client asks for `cat` and judges what comes back, a server sends everything back.

   A message that comes in is taken without anything going out, for it may have been under way when we asked for an exchange (RFC 4253, 7.1). What it
   asks for is owed, and goes out when no exchange runs. */
#include "dock.h"
#include <string.h>

#define CONNECTION "ssh-connection"
#define COMMAND "cat"
#define WINDOW 4096     /* bytes that may be under way to us */
#define PACKET 1024     /* of them in one message */
#define CHUNK 400       /* bytes that a client sends at a time, */
#define UNANSWERED 2000 /* and that may be out before they come back: fewer than two sockets hold, so that neither side waits for the other for good */
#define OWED_MOST 32
#define OWN_CHANNEL 0

enum stage { LOGIN, OPENING, ASKING, FLOWING };

struct session {
    struct kex *kex;
    struct link *link;
    const struct settings *set;
    bool client;
    enum stage stage;
    uint8_t owed[OWED_MOST]; /* messages that are to go out, in their order */
    size_t owed_count;

    uint32_t channel, window, packet; /* the peer's: its number, what it still takes, and in one message */
    uint32_t granted;                 /* what the peer may still send */
    uint8_t waiting[WINDOW];          /* server: what is to go back */
    size_t waiting_len;
    uint64_t sent, got; /* bytes of data */
    long own;           /* exchanges that we asked for, as of the last look */
    bool moved;         /* data went out since the last of them */
    bool last;          /* data went out behind the last that is waited for */
    bool ended, end_sent, closed, close_sent; /* EOF and CLOSE, the peer's and ours */
};

/* The client's data: what comes back must be the same. */
static uint8_t data_at(uint64_t i) { return (uint8_t)(i ^ i >> 8 ^ i >> 16); }

static void show_message(const struct session *s, const char *direction, unsigned message, size_t len)
{
    char what[16];
    snprintf(what, sizeof what, "message %u", message & 255);
    show(s->link->show, direction, what, (long)len, -1, -1);
}

/* ---- what comes in */

static bool owe(struct session *s, uint8_t message)
{
    if (s->owed_count == OWED_MOST) return peer_fault(s->link, "more than %d requests without waiting for an answer", OWED_MOST);
    s->owed[s->owed_count++] = message;
    return true;
}

static bool ill_formed(struct session *s, span payload)
{
    return peer_fault(s->link, "message %u of %lu bytes is not well-formed or not due", payload.len > 0 ? (unsigned)payload.at[0] : 0,
                      (unsigned long)payload.len);
}

/* Anybody is let in who asks for it without a method. */
static bool take_login(struct session *s, span payload, span rest)
{
    span user, service, method;
    if (!take_string(&rest, &user) || !take_string(&rest, &service) || !take_string(&rest, &method)) return ill_formed(s, payload);
    if (!span_is(service, CONNECTION) || !span_is(method, "none")) return owe(s, USERAUTH_FAILURE);
    s->stage = OPENING;
    return owe(s, USERAUTH_SUCCESS);
}

/* Number, window and longest packet of the peer's end, in CHANNEL_OPEN and in its confirmation. */
static bool take_ends(struct session *s, span *rest)
{
    return take_number(rest, &s->channel) && take_number(rest, &s->window) && take_number(rest, &s->packet) && s->packet > 0;
}

static bool take_open(struct session *s, span payload, span rest)
{
    span type;
    if (!take_string(&rest, &type) || !span_is(type, "session") || !take_ends(s, &rest)) return ill_formed(s, payload);
    s->stage = ASKING;
    return owe(s, CHANNEL_OPEN_CONFIRMATION);
}

static bool take_confirmation(struct session *s, span payload, span rest)
{
    if (!take_ends(s, &rest)) return ill_formed(s, payload);
    s->stage = ASKING;
    return owe(s, CHANNEL_REQUEST);
}

/* Of a client one command is taken, whatever it is; of all else nothing. */
static bool take_request(struct session *s, span payload, span rest)
{
    span type;
    bool answer;
    if (!take_string(&rest, &type) || !take_yes(&rest, &answer)) return ill_formed(s, payload);
    bool taken = !s->client && s->stage == ASKING && span_is(type, "exec");
    if (taken) s->stage = FLOWING;
    return !answer || owe(s, taken ? CHANNEL_SUCCESS : CHANNEL_FAILURE);
}

static bool take_global_request(struct session *s, span payload, span rest)
{
    span type;
    bool answer;
    if (!take_string(&rest, &type) || !take_yes(&rest, &answer)) return ill_formed(s, payload);
    return !answer || owe(s, REQUEST_FAILURE);
}

static bool take_data(struct session *s, span payload, span rest)
{
    span data;
    if (!take_string(&rest, &data) || rest.len != 0 || s->ended) return ill_formed(s, payload);
    if (data.len > s->granted) return peer_fault(s->link, "%lu bytes of data where %u may come", (unsigned long)data.len, (unsigned)s->granted);
    s->granted -= (uint32_t)data.len;
    if (s->client) {
        for (size_t i = 0; i < data.len; i++)
            if (s->got + i >= s->sent || data.at[i] != data_at(s->got + i))
                return peer_fault(s->link, "byte %llu came back as another", (unsigned long long)(s->got + i));
    } else {
        memcpy(s->waiting + s->waiting_len, data.at, data.len);
        s->waiting_len += data.len;
    }
    s->got += data.len;
    return true;
}

/* Words of the command's own, which are passed over. */
static bool take_extended_data(struct session *s, span payload, span rest)
{
    uint32_t kind;
    span data;
    if (!take_number(&rest, &kind) || !take_string(&rest, &data) || data.len > s->granted) return ill_formed(s, payload);
    s->granted -= (uint32_t)data.len;
    return true;
}

static bool take_adjustment(struct session *s, span payload, span rest)
{
    uint32_t more;
    if (!take_number(&rest, &more) || more > UINT32_MAX - s->window) return ill_formed(s, payload);
    s->window += more;
    return true;
}

/* A message of the channel, which begins with our number for it. */
static bool take_of_channel(struct session *s, unsigned message, span payload, span rest)
{
    uint32_t channel;
    if (s->stage < (message == CHANNEL_OPEN_CONFIRMATION || message == CHANNEL_OPEN_FAILURE ? OPENING : ASKING) || s->closed
        || !take_number(&rest, &channel) || channel != OWN_CHANNEL) return ill_formed(s, payload);
    switch (message) {
    case CHANNEL_REQUEST: return take_request(s, payload, rest);
    case CHANNEL_WINDOW_ADJUST: return take_adjustment(s, payload, rest);
    case CHANNEL_CLOSE: return s->closed = true;
    }
    if (s->client && s->stage == OPENING && message == CHANNEL_OPEN_CONFIRMATION) return take_confirmation(s, payload, rest);
    if (s->client && s->stage == OPENING && message == CHANNEL_OPEN_FAILURE) return trouble("the peer opens no channel");
    if (s->client && s->stage == ASKING && message == CHANNEL_FAILURE) return trouble("the peer does not run " COMMAND);
    if (s->client && s->stage == ASKING && message == CHANNEL_SUCCESS) {
        s->stage = FLOWING;
        return true;
    }
    if (s->stage < FLOWING) return ill_formed(s, payload);
    switch (message) {
    case CHANNEL_DATA: return take_data(s, payload, rest);
    case CHANNEL_EXTENDED_DATA: return take_extended_data(s, payload, rest);
    case CHANNEL_EOF: return s->ended = true;
    }
    return ill_formed(s, payload);
}

static bool take(void *of, span payload)
{
    struct session *s = of;
    unsigned message = payload.len > 0 ? payload.at[0] : 0;
    span rest = {payload.at + 1, payload.len > 0 ? payload.len - 1 : 0};
    show_message(s, "<-", message, payload.len);
    if (message >= CHANNEL_OPEN_CONFIRMATION && message <= CHANNEL_FAILURE) return take_of_channel(s, message, payload, rest);
    if (message == GLOBAL_REQUEST && s->stage > LOGIN) return take_global_request(s, payload, rest);
    if ((message == REQUEST_SUCCESS || message == REQUEST_FAILURE) && s->stage > LOGIN) return true; /* nothing was asked, and nobody waits for it */
    if (message == USERAUTH_REQUEST && !s->client) return s->stage > LOGIN || take_login(s, payload, rest); /* behind a login it is passed over */
    if (message == CHANNEL_OPEN && !s->client && s->stage == OPENING) return take_open(s, payload, rest);
    if (s->client && s->stage == LOGIN) switch (message) {
        case USERAUTH_BANNER: return true;
        case USERAUTH_FAILURE: return trouble("the peer does not let %s in", s->set->user);
        case USERAUTH_SUCCESS: s->stage = OPENING; return owe(s, CHANNEL_OPEN);
        }
    return ill_formed(s, payload);
}

/* ---- what goes out */

static bool send_blob(struct session *s, const struct blob *b)
{
    if (b->short_of_room) return trouble("own message %u is too long", (unsigned)b->at[0]);
    show_message(s, "->", b->at[0], b->len);
    return link_send(s->link, b->at, b->len);
}

/* The signature is over the session identifier and all that stands ahead of it (RFC 4252, 7). */
static bool put_login(struct session *s, struct blob *b)
{
    const struct host_key *key = s->set->login_key;
    const struct scheme *scheme = NULL;
    put_text(b, s->set->user);
    put_text(b, CONNECTION);
    put_text(b, key == NULL ? "none" : "publickey");
    if (key == NULL) return true;
    for (size_t i = 0; scheme == NULL && i < scheme_count; i++)
        if (strcmp(schemes[i].key_type, key->type) == 0) scheme = &schemes[i];
    put_byte(b, 1);
    put_text(b, scheme->name);
    put_string(b, key->blob, key->blob_len);

    uint8_t text[4 + CASTULFRISA_H_SIZE + 2 * CASTULFRISA_BLOB_MOST], signature[CASTULFRISA_BLOB_MOST];
    struct blob signed_text = {text, sizeof text, 0, false};
    size_t signature_len;
    span id = kex_identifier(s->kex);
    put_string(&signed_text, id.at, id.len);
    for (size_t i = 0; i < b->len; i++) put_byte(&signed_text, b->at[i]);
    if (signed_text.short_of_room || !sign_hash(key, scheme, text, signed_text.len, signature, &signature_len)) return trouble("the key does not sign");
    put_string(b, signature, signature_len);
    return true;
}

static void put_ends(struct blob *b)
{
    put_number(b, OWN_CHANNEL);
    put_number(b, WINDOW);
    put_number(b, PACKET);
}

static void put_request(struct session *s, struct blob *b)
{
    put_number(b, s->channel);
    put_text(b, s->client ? "exec" : "exit-status");
    put_byte(b, s->client);
    if (s->client) put_text(b, COMMAND);
    else put_number(b, 0);
}

static bool send_owed(struct session *s)
{
    uint8_t payload[3 * CASTULFRISA_BLOB_MOST], message = s->owed[0];
    struct blob b = {payload, sizeof payload, 0, false};
    memmove(s->owed, s->owed + 1, --s->owed_count);
    put_byte(&b, message);
    switch (message) {
    case USERAUTH_REQUEST:
        if (!put_login(s, &b)) return false;
        break;
    case USERAUTH_FAILURE:
        put_text(&b, "none");
        put_byte(&b, 0);
        break;
    case CHANNEL_OPEN:
        put_text(&b, "session");
        put_ends(&b);
        break;
    case CHANNEL_OPEN_CONFIRMATION:
        put_number(&b, s->channel);
        put_ends(&b);
        break;
    case CHANNEL_REQUEST: put_request(s, &b); break;
    case USERAUTH_SUCCESS:
    case REQUEST_FAILURE: break;
    default: put_number(&b, s->channel); /* SUCCESS, FAILURE, EOF and CLOSE of the channel */
    }
    return send_blob(s, &b);
}

static bool send_adjustment(struct session *s, uint32_t more)
{
    uint8_t payload[9];
    struct blob b = {payload, sizeof payload, 0, false};
    put_byte(&b, CHANNEL_WINDOW_ADJUST);
    put_number(&b, s->channel);
    put_number(&b, more);
    s->granted += more;
    return send_blob(s, &b);
}

/* Whether there were as many exchanges as are asked for. */
static bool is_rekeyed(const struct session *s)
{
    struct asked a = kex_asked(s->kex);
    return a.own >= s->set->rekeyings && a.peer >= s->set->peer_rekeyings;
}

static bool send_data(struct session *s, const uint8_t *data, size_t len)
{
    uint8_t payload[9 + PACKET];
    struct blob b = {payload, sizeof payload, 0, false};
    put_byte(&b, CHANNEL_DATA);
    put_number(&b, s->channel);
    put_string(&b, data, len);
    s->window -= (uint32_t)len;
    s->sent += len;
    s->moved = true;
    s->last = is_rekeyed(s);
    return send_blob(s, &b);
}

/* ---- what is next */

/* How many bytes of data can go out now. */
static size_t data_due(const struct session *s)
{
    size_t due = s->waiting_len;
    if (s->client) due = !s->last && s->sent - s->got <= UNANSWERED - CHUNK ? CHUNK : 0;
    if (due > CHUNK) due = CHUNK;
    if (due > s->packet) due = s->packet;
    return due > s->window ? s->window : due;
}

static bool send_due_data(struct session *s, size_t len)
{
    uint8_t data[CHUNK];
    for (size_t i = 0; i < len; i++) data[i] = s->client ? data_at(s->sent + i) : s->waiting[i];
    if (!s->client) {
        s->waiting_len -= len;
        memmove(s->waiting, s->waiting + len, s->waiting_len);
    }
    return send_data(s, data, len);
}

/* What ends the channel, once: of a client when all is back, of a server when all went back. */
static bool owe_end(struct session *s)
{
    if (s->stage == FLOWING && !s->end_sent && (s->client ? s->last && s->got == s->sent : s->ended && s->waiting_len == 0)) {
        s->end_sent = true;
        if (!owe(s, CHANNEL_EOF) || (!s->client && !owe(s, CHANNEL_REQUEST))) return false;
        if (!s->client) s->close_sent = owe(s, CHANNEL_CLOSE);
    }
    if (s->closed && !s->close_sent) s->close_sent = owe(s, CHANNEL_CLOSE);
    return true;
}

/* One thing that is due, or the next message of the peer. */
static bool go_on(struct session *s)
{
    const long own = kex_asked(s->kex).own;
    if (own != s->own) s->moved = false;
    s->own = own;

    const bool flowing = s->stage == FLOWING && !s->closed;
    if (flowing && own < s->set->rekeyings && (s->moved || s->ended)) return kex_ask(s->kex, take, s);
    if (!owe_end(s)) return false;
    if (s->owed_count > 0) return send_owed(s);
    const uint32_t used_up = (uint32_t)(WINDOW - s->granted - s->waiting_len);
    if (flowing && used_up >= WINDOW / 2) return send_adjustment(s, used_up);
    const size_t len = flowing && !s->end_sent ? data_due(s) : 0;
    if (len > 0) return send_due_data(s, len);

    span payload;
    return kex_receive(s->kex, &payload) && take(s, payload);
}

static bool session(struct session *s)
{
    s->link = kex_link(s->kex);
    s->granted = WINDOW;
    while (!(s->closed && s->close_sent && s->owed_count == 0)) {
        s->link->may_leave = s->close_sent && s->owed_count == 0; /* ssh does not wait for its own CLOSE to go out where new keys are due ahead of it */
        if (!go_on(s)) {
            if (!s->link->left) return false;
            break;
        }
    }
    if (s->client && (!s->end_sent || s->got != s->sent)) return trouble("the peer closed the channel ahead of time");
    link_disconnect(s->link, REASON_BY_APPLICATION, "all data went there and back");
    struct asked asked = kex_asked(s->kex);
    printf("data %llu bytes there and back, exchanges asked for %ld by us and %ld by the peer, messages between KEXINITs %ld\n",
           (unsigned long long)s->got, asked.own, asked.peer, asked.between);
    return fflush(stdout) == 0 || trouble("standard output cannot be written");
}

bool session_as_client(struct kex *k, const struct settings *set)
{
    struct session s = {.kex = k, .set = set, .client = true, .owed = {USERAUTH_REQUEST}, .owed_count = 1};
    return session(&s);
}

bool session_as_server(struct kex *k, const struct settings *set)
{
    struct session s = {.kex = k, .set = set};
    return session(&s);
}
