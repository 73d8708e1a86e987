/* One key exchange by libssh, as server or as client, on the loopback, and the first service behind it: no more than its own calls for them. It
   ends with 0 where libssh says that the exchange is done, which as client means that the signature over H held, and that the service was
   accepted; else with its words on standard error.
   usage: libssh_peer server PORT METHOD HOST_KEY_FILE | client PORT METHOD */
#include <libssh/libssh.h>
#include <libssh/server.h>
#include <stdbool.h>
#include <stdio.h>
#include <stdlib.h>
#include <string.h>

static const bool no = false;

static int ended(const char *what, void *of)
{
    fprintf(stderr, "libssh_peer: %s: %s\n", what, ssh_get_error(of));
    return 1;
}

/* What dock says at the end, in a packet that opens. */
static int good_bye(ssh_session session, const char *words)
{
    return strstr(ssh_get_error(session), words) != NULL ? 0 : ended("service", session);
}

static int serve(const char *port, const char *method, const char *key)
{
    ssh_bind bind = ssh_bind_new();
    ssh_session session = ssh_new();
    if (ssh_bind_options_set(bind, SSH_BIND_OPTIONS_PROCESS_CONFIG, &no) < 0
        || ssh_bind_options_set(bind, SSH_BIND_OPTIONS_BINDADDR, "127.0.0.1") < 0
        || ssh_bind_options_set(bind, SSH_BIND_OPTIONS_BINDPORT_STR, port) < 0
        || ssh_bind_options_set(bind, SSH_BIND_OPTIONS_HOSTKEY, key) < 0
        || ssh_bind_options_set(bind, SSH_BIND_OPTIONS_KEY_EXCHANGE, method) < 0) return ended("options", bind);
    if (ssh_bind_listen(bind) < 0) return ended("listen", bind);
    puts("listening");
    fflush(stdout);
    if (ssh_bind_accept(bind, session) != SSH_OK) return ended("accept", bind);
    if (ssh_handle_key_exchange(session) != SSH_OK) return ended("key exchange", session);
    ssh_message message = ssh_message_get(session);
    if (message == NULL || ssh_message_type(message) != SSH_REQUEST_SERVICE || ssh_message_service_reply_success(message) != SSH_OK)
        return ended("service", session);
    ssh_message_free(message);
    if (ssh_message_get(session) != NULL) return ended("more than the service", session);
    int result = good_bye(session, "the service was accepted");
    ssh_free(session);
    ssh_bind_free(bind);
    return result;
}

static int call(const char *port, const char *method)
{
    ssh_session session = ssh_new();
    if (ssh_options_set(session, SSH_OPTIONS_PROCESS_CONFIG, &no) < 0 || ssh_options_set(session, SSH_OPTIONS_HOST, "127.0.0.1") < 0
        || ssh_options_set(session, SSH_OPTIONS_PORT_STR, port) < 0 || ssh_options_set(session, SSH_OPTIONS_KEY_EXCHANGE, method) < 0)
        return ended("options", session);
    if (ssh_connect(session) != SSH_OK) return ended("key exchange", session);
    /* dock's good-bye may be read with what stands ahead of it, and is then what the call ends with */
    int result = ssh_service_request(session, "ssh-userauth") == SSH_OK ? 0 : good_bye(session, "the service is accepted");
    ssh_free(session);
    return result;
}

int main(int count, char **words)
{
    if (count == 2 && strcmp(words[1], "version") == 0) return puts(ssh_version(0)) < 0;
    if (count == 5 && strcmp(words[1], "server") == 0) return serve(words[2], words[3], words[4]);
    if (count == 4 && strcmp(words[1], "client") == 0) return call(words[2], words[3]);
    fputs("usage: libssh_peer server PORT METHOD HOST_KEY_FILE | client PORT METHOD | version\n", stderr);
    return 2;
}
