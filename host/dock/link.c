/* One connection: its socket, version lines (RFC 4253, 4.2) and packets (RFC 4253, 6), in the clear up to NEWKEYS and sealed behind it. */
#include "dock.h"
#include <arpa/inet.h>
#include <errno.h>
#include <fcntl.h>
#include <limits.h>
#include <netdb.h>
#include <netinet/in.h>
#include <netinet/tcp.h>
#include <openssl/crypto.h>
#include <openssl/rand.h>
#include <poll.h>
#include <stdarg.h>
#include <string.h>
#include <sys/socket.h>
#include <time.h>
#include <unistd.h>

#define VERSION_LINE_MOST 255  /* with its CR and LF */
#define LINES_AHEAD_MOST 65536 /* bytes that a server may send ahead of its version line */
#define LAST_WORDS_MS 1000     /* what DISCONNECT, and then the peer's end, may take */

static long long now_ms(void)
{
    struct timespec t;
    clock_gettime(CLOCK_MONOTONIC, &t);
    return t.tv_sec * 1000LL + t.tv_nsec / 1000000;
}

void link_restart_clock(struct link *l) { l->deadline = now_ms() + l->timeout * 1000LL; }

/* ---- failures are texts until someone decides to print them: NULL is none */

static const char *ready(const struct link *l, short events)
{
    for (;;) {
        struct pollfd p = {l->fd, events, 0};
        long long left = l->deadline - now_ms();
        if (left <= 0) return "the time for the connection is over";
        int n = poll(&p, 1, left > INT_MAX ? INT_MAX : (int)left);
        if (n > 0) return NULL;
        if (n < 0 && errno != EINTR) return strerror(errno);
    }
}

static bool again(void) { return errno == EAGAIN || errno == EWOULDBLOCK || errno == EINTR; }

static const char *send_bytes(struct link *l, const uint8_t *bytes, size_t len)
{
    while (len > 0) {
        const char *failure = ready(l, POLLOUT);
        if (failure != NULL) return failure;
        ssize_t n = send(l->fd, bytes, len, MSG_NOSIGNAL);
        if (n < 0 && !again()) return strerror(errno);
        if (n > 0) {
            bytes += n;
            len -= (size_t)n;
        }
    }
    return NULL;
}

static const char *send_packet(struct link *l, const uint8_t *payload, size_t len)
{
    uint8_t packet[4 + 1 + CASTULFRISA_REPLY + 3 + SEAL_BLOCK + SEAL_TAG_MOST];
    size_t block = seal_block(&l->going), tag = seal_tag_len(&l->going);
    size_t padding = block - seal_aligned(&l->going, 1 + len) % block;
    if (padding < 4) padding += block;
    size_t length = 1 + len + padding;
    if (4 + length + tag > sizeof packet) return "packet too long to send";
    if (l->going.packets == UINT32_MAX) return "too many packets under one key";

    packet[0] = (uint8_t)(length >> 24);
    packet[1] = (uint8_t)(length >> 16);
    packet[2] = (uint8_t)(length >> 8);
    packet[3] = (uint8_t)length;
    packet[4] = (uint8_t)padding;
    memcpy(packet + 5, payload, len);
    if (RAND_bytes(packet + 5 + len, (int)padding) != 1) return "no random bytes";
    if (!seal_close_packet(&l->going, packet, 4 + length)) return "libcrypto does not encrypt";
    return send_bytes(l, packet, 4 + length + tag);
}

/* ---- sockets */

static void link_init(struct link *l, int fd, int timeout)
{
    memset(l, 0, sizeof *l);
    l->fd = fd;
    l->timeout = timeout;
    link_restart_clock(l);
}

/* Every wait is poll's, and a small packet does not wait for the answer to the one before it. */
static bool prepare(int fd)
{
    int flags = fcntl(fd, F_GETFL), yes = 1;
    return flags >= 0 && fcntl(fd, F_SETFL, flags | O_NONBLOCK) == 0
        && setsockopt(fd, IPPROTO_TCP, TCP_NODELAY, &yes, sizeof yes) == 0;
}

bool link_connect(struct link *l, const char *host, const char *port, int timeout)
{
    struct addrinfo hints, *found;
    const char *failure = "no address";

    memset(&hints, 0, sizeof hints);
    hints.ai_family = AF_UNSPEC;
    hints.ai_socktype = SOCK_STREAM;
    link_init(l, -1, timeout);
    int answer = getaddrinfo(host, port, &hints, &found);
    if (answer != 0) return trouble("%s: %s", host, gai_strerror(answer));

    for (struct addrinfo *a = found; a != NULL; a = a->ai_next) {
        l->fd = socket(a->ai_family, a->ai_socktype, a->ai_protocol);
        if (l->fd < 0) {
            failure = strerror(errno);
            continue;
        }
        if (!prepare(l->fd)) failure = strerror(errno);
        else if (connect(l->fd, a->ai_addr, a->ai_addrlen) == 0) failure = NULL;
        else if (errno != EINPROGRESS) failure = strerror(errno);
        else if ((failure = ready(l, POLLOUT)) == NULL) {
            int error = 0;
            socklen_t size = sizeof error;
            if (getsockopt(l->fd, SOL_SOCKET, SO_ERROR, &error, &size) != 0) error = errno;
            if (error != 0) failure = strerror(error);
        }
        if (failure == NULL) break;
        close(l->fd);
        l->fd = -1;
    }
    freeaddrinfo(found);
    return failure == NULL || trouble("%s port %s: %s", host, port, failure);
}

union address { struct sockaddr any; struct sockaddr_in v4; struct sockaddr_in6 v6; };

static bool read_address(const char *text, uint16_t port, union address *address, socklen_t *size)
{
    memset(address, 0, sizeof *address);
    if (inet_pton(AF_INET, text, &address->v4.sin_addr) == 1) {
        address->v4.sin_family = AF_INET;
        address->v4.sin_port = htons(port);
        *size = sizeof address->v4;
        return true;
    }
    address->v6.sin6_family = AF_INET6;
    address->v6.sin6_port = htons(port);
    *size = sizeof address->v6;
    return inet_pton(AF_INET6, text, &address->v6.sin6_addr) == 1;
}

bool link_is_address(const char *text)
{
    union address address;
    socklen_t size;
    return read_address(text, 0, &address, &size);
}

/* At this address alone: one of IPv6 takes none of IPv4, too. */
bool link_listen(int *listener, const char *text, uint16_t *port)
{
    union address address;
    socklen_t size;
    int yes = 1;

    if (!read_address(text, *port, &address, &size)) return trouble("%s: no address", text);
    *listener = socket(address.any.sa_family, SOCK_STREAM, 0);
    if (*listener < 0 || setsockopt(*listener, SOL_SOCKET, SO_REUSEADDR, &yes, sizeof yes) != 0
        || (address.any.sa_family == AF_INET6 && setsockopt(*listener, IPPROTO_IPV6, IPV6_V6ONLY, &yes, sizeof yes) != 0)
        || bind(*listener, &address.any, size) != 0 || listen(*listener, 16) != 0 || getsockname(*listener, &address.any, &size) != 0)
        return trouble("%s port %u: %s", text, (unsigned)*port, strerror(errno));
    *port = ntohs(address.any.sa_family == AF_INET ? address.v4.sin_port : address.v6.sin6_port);
    return true;
}

bool link_accept(struct link *l, int listener, int timeout)
{
    int fd;
    do fd = accept(listener, NULL, NULL);
    while (fd < 0 && (errno == EINTR || errno == ECONNABORTED));
    link_init(l, fd, timeout);
    return (fd >= 0 && prepare(fd)) || trouble("accept: %s", strerror(errno));
}

/* Ends our half and waits a moment for the peer's: closing over bytes that were not read would reset the connection, and what
   we sent last might never be read. */
void link_close(struct link *l)
{
    if (l->fd >= 0) {
        l->deadline = now_ms() + LAST_WORDS_MS;
        bool open = shutdown(l->fd, SHUT_WR) == 0;
        while (open && ready(l, POLLIN) == NULL) {
            ssize_t n = recv(l->fd, l->in, sizeof l->in, 0);
            open = n > 0 || (n < 0 && again());
        }
        close(l->fd);
    }
    seal_end(&l->coming);
    seal_end(&l->going);
    OPENSSL_cleanse(l, sizeof *l);
    l->fd = -1;
}

/* ---- what comes in */

/* Has at least n bytes waiting, n up to the buffer's length. */
static bool need(struct link *l, size_t n)
{
    if (l->end - l->begin >= n) return true;
    memmove(l->in, l->in + l->begin, l->end - l->begin);
    l->end -= l->begin;
    l->begin = 0;
    while (l->end < n) {
        const char *failure = ready(l, POLLIN);
        if (failure != NULL) return trouble("receiving: %s", failure);
        ssize_t got = recv(l->fd, l->in + l->end, sizeof l->in - l->end, 0);
        if (got == 0) return trouble("the peer closed the connection");
        if (got < 0 && !again()) return trouble("receiving: %s", strerror(errno));
        if (got > 0) l->end += (size_t)got;
    }
    return true;
}

static uint32_t number_at(const uint8_t *at)
{
    return (uint32_t)at[0] << 24 | (uint32_t)at[1] << 16 | (uint32_t)at[2] << 8 | at[3];
}

/* A packet that somebody changed on its way: the peer is told no more than that, wherever it was noticed. */
static bool packet_fault(struct link *l, const char *what, unsigned long number)
{
    if (!l->coming.on) return peer_fault(l, what, number);
    trouble(what, number);
    link_disconnect(l, REASON_MAC_ERROR, "packet corrupt");
    return false;
}

/* One packet, whatever its message. Behind NEWKEYS its length is anybody's word until the MAC holds, so that its bounds come first. */
static bool receive_packet(struct link *l, span *payload)
{
    struct seal *s = &l->coming;
    unsigned long sequence = s->sequence;
    l->begin += l->packet;
    l->packet = 0;
    if (s->packets == UINT32_MAX) return peer_fault(l, "too many packets under one key");
    if (!need(l, seal_ahead(s))) return false;
    if (!seal_show_length(s, l->in + l->begin)) return trouble("libcrypto does not decrypt");
    uint32_t length = number_at(l->in + l->begin);
    size_t aligned = seal_aligned(s, length), tag = seal_tag_len(s);
    if (length > PACKET_MOST - 4 - tag || aligned < 16 || aligned % seal_block(s) != 0)
        return packet_fault(l, "packet length %lu not allowed", length);
    if (!need(l, 4 + (size_t)length + tag)) return false;
    if (!seal_open_packet(s, l->in + l->begin, 4 + (size_t)length)) return packet_fault(l, "the MAC of packet %lu does not hold", sequence);
    uint8_t padding = l->in[l->begin + 4];
    if (padding < 4 || padding > length - 1) return peer_fault(l, "padding length %u not allowed", (unsigned)padding);
    payload->at = l->in + l->begin + 5;
    payload->len = length - 1 - padding;
    l->packet = 4 + (size_t)length + tag;
    return true;
}

static bool disconnected(struct link *l, span payload)
{
    if (payload.len < 5) return trouble("the peer disconnected without a reason");
    l->left = l->may_leave && number_at(payload.at + 1) == REASON_BY_APPLICATION;
    if (l->left) return false;
    span rest = {payload.at + 5, payload.len - 5}, text = {rest.at, 0};
    (void)take_string(&rest, &text); /* a text that is cut is none */
    return trouble("the peer disconnected: reason %lu, %.*s", (unsigned long)number_at(payload.at + 1),
                   text.len > 200 ? 200 : (int)text.len, (const char *)text.at);
}

/* RFC 4250, 4.1: 0 is no number, and left to who waits for a message, as an empty payload is. */
static bool is_recognized(uint8_t message)
{
    return message <= MESSAGE_SERVICE_ACCEPT || message == MESSAGE_KEXINIT || message == MESSAGE_NEWKEYS
        || (message >= MESSAGES_OF_METHOD && message < MESSAGES_OF_TRANSPORT) || (message >= USERAUTH_REQUEST && message <= USERAUTH_BANNER)
        || (message >= GLOBAL_REQUEST && message <= REQUEST_FAILURE) || (message >= CHANNEL_OPEN && message <= CHANNEL_FAILURE);
}

/* For the packet that came last, by its number. */
static bool answer_unimplemented(struct link *l)
{
    uint8_t payload[5];
    struct blob b = {payload, sizeof payload, 0, false};
    put_byte(&b, MESSAGE_UNIMPLEMENTED);
    put_number(&b, l->coming.sequence - 1);
    show(l->show, "->", "UNIMPLEMENTED", (long)b.len, -1, -1);
    return link_send(l, payload, b.len);
}

/* RFC 4253, 11.3; where it is not well-formed there are no words. */
static void show_debug(const struct link *l, span payload)
{
    bool always;
    span rest = {payload.at + 1, payload.len - 1}, words;
    show(l->show, "<-", "DEBUG", (long)payload.len, -1, -1);
    if (take_yes(&rest, &always) && take_string(&rest, &words)) show_words(l->show, words);
}

/* What may come at any time and is for nobody; of a number that nobody knows the peer is told so (RFC 4253, 11.4). */
static bool pass_by(struct link *l, uint8_t message, span payload)
{
    const long len = (long)payload.len;
    switch (message) {
    case MESSAGE_IGNORE: show(l->show, "<-", "IGNORE", len, -1, -1); return true;
    case MESSAGE_DEBUG: show_debug(l, payload); return true;
    case MESSAGE_UNIMPLEMENTED:
        show(l->show, "<-", "UNIMPLEMENTED", len, -1, -1);
        if (l->held && !l->exchanging && len == 5 && number_at(payload.at + 1) == l->kexinit)
            return trouble("the peer makes no key exchange at this time");
        return true;
    }
    show(l->show, "<-", "unknown message", len, -1, -1);
    return answer_unimplemented(l);
}

/* Some peers send data and answers also behind their KEXINIT, which RFC 4253, 7.1, forbids: the core is not handed them, and they are not lost. */
static bool set_aside(struct link *l, span payload)
{
    struct blob b = {l->aside, sizeof l->aside, l->aside_end, false};
    put_string(&b, payload.at, payload.len);
    if (b.short_of_room) return peer_fault(l, "more than %d bytes of other messages within a key exchange", ASIDE_MOST);
    l->aside_end = b.len;
    show(l->show, "<-", "set aside", (long)payload.len, -1, -1);
    return true;
}

bool link_take_aside(struct link *l, span *payload)
{
    span rest = {l->aside + l->aside_begin, l->aside_end - l->aside_begin};
    if (!take_string(&rest, payload)) return false;
    l->aside_begin = l->aside_end - rest.len;
    if (rest.len == 0) l->aside_begin = l->aside_end = 0;
    return true;
}

/* Up to the first NEWKEYS nothing is sealed: what is not the transport's goes to who waits for a message of the exchange, and is refused there. */
bool link_receive(struct link *l, span *payload)
{
    if (!l->exchanging && link_take_aside(l, payload)) return true;
    while (receive_packet(l, payload)) {
        const uint8_t message = payload->len > 0 ? payload->at[0] : 0;
        const bool of_transport = message < MESSAGES_OF_TRANSPORT, sealed = l->coming.on;
        const bool word = message == MESSAGE_IGNORE || message == MESSAGE_DEBUG || message == MESSAGE_UNIMPLEMENTED;
        if (!of_transport && !sealed) return true;
        if (message == MESSAGE_DISCONNECT) {
            show(l->show, "<-", "DISCONNECT", (long)payload->len, -1, -1);
            return disconnected(l, *payload);
        }
        if (word || !is_recognized(message)) {
            if (l->strict && !sealed) return peer_fault(l, "message %u within a strict key exchange", (unsigned)message);
            if (!pass_by(l, message, *payload)) return false;
        } else if (of_transport || !l->exchanging) return true;
        else if (!set_aside(l, *payload)) return false;
    }
    return false;
}

bool link_read_version(struct link *l, bool from_server, uint8_t v[CASTULFRISA_V_MOST], size_t *v_len)
{
    size_t ahead = 0;
    for (;;) {
        uint8_t line[VERSION_LINE_MOST];
        size_t len = 0; /* of the line so far, its end included; only its beginning is kept */
        do {
            if (!need(l, 1)) return false;
            uint8_t b = l->in[l->begin++];
            if (len < sizeof line) line[len] = b;
            len++;
            if (b == '\n') break;
        } while (len < sizeof line || (from_server && memcmp(line, "SSH-", 4) != 0 && len + ahead < LINES_AHEAD_MOST));

        bool version = len >= 4 && memcmp(line, "SSH-", 4) == 0;
        if (!version && !from_server) return trouble("the peer's first line is no version line");
        if (!version) {
            ahead += len;
            if (ahead >= LINES_AHEAD_MOST) return trouble("no version line in the peer's first %d bytes", LINES_AHEAD_MOST);
            show(l->show, "<-", "line", (long)len, -1, -1);
            continue;
        }
        if (len > sizeof line || line[len - 1] != '\n') return trouble("the peer's version line is too long");
        size_t kept = len - 1;
        if (line[kept - 1] == '\r') kept--;
        if (kept > CASTULFRISA_V_MOST) return trouble("the peer's version line is too long");
        if (memchr(line, 0, kept) != NULL || memchr(line, '\r', kept) != NULL)
            return trouble("the peer's version line holds a control byte");
        if (!(kept >= 8 && memcmp(line, "SSH-2.0-", 8) == 0) && !(kept >= 9 && memcmp(line, "SSH-1.99-", 9) == 0))
            return trouble("the peer's version is not 2.0: %.*s", (int)kept, (const char *)line);
        memcpy(v, line, kept);
        *v_len = kept;
        show(l->show, "<-", "version", (long)len, -1, -1);
        return true;
    }
}

/* ---- what goes out */

bool link_send_version(struct link *l, const char *v)
{
    char line[VERSION_LINE_MOST + 1];
    int len = snprintf(line, sizeof line, "%s\r\n", v);
    show(l->show, "->", "version", len, -1, -1);
    const char *failure = send_bytes(l, (const uint8_t *)line, (size_t)len);
    return failure == NULL || trouble("sending: %s", failure);
}

/* RFC 4253, 7.1: what may go out between own KEXINIT and own NEWKEYS. */
static bool is_of_exchange(uint8_t message)
{
    return message < MESSAGE_SERVICE_REQUEST || (message > MESSAGE_SERVICE_ACCEPT && message < MESSAGE_KEXINIT)
        || (message > MESSAGE_KEXINIT && message < MESSAGES_OF_TRANSPORT);
}

bool link_send(struct link *l, const uint8_t *payload, size_t len)
{
    if (l->silent) return trouble("sending behind DISCONNECT");
    if (l->held && !is_of_exchange(payload[0])) return trouble("sending message %u within a key exchange", (unsigned)payload[0]);
    if (payload[0] == MESSAGE_KEXINIT) {
        l->held = true;
        l->kexinit = l->going.sequence;
    }
    if (payload[0] == MESSAGE_NEWKEYS) l->held = false;
    const char *failure = send_packet(l, payload, len);
    if (l->may_leave) return true; /* where it has left, its last words say so: they are still to be read */
    return failure == NULL || trouble("sending: %s", failure);
}

void link_disconnect(struct link *l, enum reason reason, const char *text)
{
    uint8_t payload[128];
    struct blob b = {payload, sizeof payload, 0, false};
    if (l->silent) return;
    l->silent = true;
    l->deadline = now_ms() + LAST_WORDS_MS;
    put_byte(&b, MESSAGE_DISCONNECT);
    put_number(&b, reason);
    put_text(&b, text);
    put_text(&b, "");
    show(l->show, "->", "DISCONNECT", (long)b.len, -1, -1);
    (void)send_packet(l, payload, b.len);
}

bool peer_fault(struct link *l, const char *format, ...)
{
    char line[400];
    va_list arguments;

    va_start(arguments, format);
    vsnprintf(line, sizeof line, format, arguments);
    va_end(arguments);
    trouble("%s", line);
    if (l->exchanging) link_disconnect(l, REASON_KEY_EXCHANGE_FAILED, "key exchange failed");
    else link_disconnect(l, REASON_PROTOCOL_ERROR, "protocol error");
    return false;
}
