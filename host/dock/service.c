/* The first service behind NEWKEYS (RFC 4253, 10): the first packets that only the two sides of the exchange can read; and exchanges behind it. */
#include "dock.h"

#define SERVICE "ssh-userauth"
#define SERVICE_BYTES (1 + 4 + sizeof SERVICE - 1)

/* SERVICE_REQUEST and SERVICE_ACCEPT have the same form. */
static const char *shown_as(enum message message) { return message == MESSAGE_SERVICE_REQUEST ? "SERVICE_REQUEST" : "SERVICE_ACCEPT"; }

static bool send_service(struct link *l, enum message message)
{
    uint8_t payload[SERVICE_BYTES];
    struct blob b = {payload, sizeof payload, 0, false};
    put_byte(&b, (uint8_t)message);
    put_text(&b, SERVICE);
    show(l->show, "->", shown_as(message), (long)b.len, -1, -1);
    return link_send(l, payload, b.len);
}

static bool receive_service(struct kex *k, enum message message)
{
    struct link *l = kex_link(k);
    const char *shown = shown_as(message);
    span payload, name;
    if (!kex_receive(k, &payload)) return false;
    unsigned found = payload.len > 0 ? payload.at[0] : 0;
    span rest = {payload.at + 1, payload.len > 0 ? payload.len - 1 : 0};
    if (found != message || !take_string(&rest, &name) || rest.len != 0)
        return peer_fault(l, "message %u of %lu bytes where %s is due", found, (unsigned long)payload.len, shown);
    show(l->show, "<-", shown, (long)payload.len, -1, -1);
    if (!span_is(name, SERVICE)) {
        trouble("%s of another service: %.*s", shown, name.len > 64 ? 64 : (int)name.len, (const char *)name.at);
        link_disconnect(l, REASON_NO_SERVICE, "there is " SERVICE " alone");
        return false;
    }
    puts("service " SERVICE);
    return fflush(stdout) == 0 || trouble("standard output cannot be written");
}

bool ask_service(struct kex *k)
{
    return send_service(kex_link(k), MESSAGE_SERVICE_REQUEST) && receive_service(k, MESSAGE_SERVICE_ACCEPT);
}

bool grant_service(struct kex *k)
{
    return receive_service(k, MESSAGE_SERVICE_REQUEST) && send_service(kex_link(k), MESSAGE_SERVICE_ACCEPT);
}

/* The service's own messages may be under way. None is answered: the exchanges are the last that is made of the connection. */
static bool pass_over(void *of, span payload)
{
    unsigned found = payload.len > 0 ? payload.at[0] : 0;
    return found >= MESSAGES_OF_TRANSPORT || peer_fault(of, "message %u of %lu bytes where KEXINIT is due", found, (unsigned long)payload.len);
}

bool rekey_behind_service(struct kex *k, long rekeyings)
{
    for (; rekeyings > 0; rekeyings--)
        if (!kex_ask(k, pass_over, kex_link(k))) return false;
    return true;
}
