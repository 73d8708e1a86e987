/* The command line. */
#include "dock.h"
#include <errno.h>
#include <openssl/crypto.h>
#include <signal.h>
#include <stdlib.h>
#include <string.h>
#include <unistd.h>

#define METHODS \
    "curve25519-sha256,curve25519-sha256@libssh.org,ecdh-sha2-nistp256,ecdh-sha2-nistp384,ecdh-sha2-nistp521,curve448-sha512"
#define HYBRIDS "mlkem768x25519-sha256,mlkem768nistp256-sha256,mlkem1024nistp384-sha384"
#define CIPHERS "aes256-ctr,aes128-ctr"
#define MACS "hmac-sha2-256-etm@openssh.com,hmac-sha2-512-etm@openssh.com,hmac-sha2-256,hmac-sha2-512"
#define TIMEOUT 20

enum { DONE = 0, FAILED = 1, USAGE = 2 };

static const char help[] =
    "usage: dock client HOST PORT --known-hosts FILE | --insecure [--host-keys NAME,..] [--login USER [--key FILE] [--rekeyed N]] [options]\n"
    "       dock server PORT --host-key FILE [--host-key FILE ..] [--listen ADDRESS] [--echo] [--x-begins HEX] [--count N] [options]\n"
    "       dock --help | --version\n"
    "\n"
    "Makes an SSH key exchange, and behind NEWKEYS, encrypted, asks for the service ssh-userauth or accepts it, which is the end. Prints\n"
    "method, H, the session identifier, host key, cipher and MAC of each direction, whether the exchange was strict, and the service;\n"
    "and method, H and identifier of each later exchange, of which the peer may ask for any number.\n"
    "A failure is one line on standard error and exit 1; a fault of the peer is answered with SSH_DISCONNECT, reason 3, or 2, 5 or 7\n"
    "behind NEWKEYS. Exit 2: the command line.\n"
    "\n"
    "  --known-hosts FILE  refuse a host key that FILE does not have for HOST and PORT, or has as revoked. FILE is as ssh has it (sshd(8),\n"
    "                      SSH_KNOWN_HOSTS FILE FORMAT), but for @cert-authority; a name without a port is for port 22 alone\n"
    "  --insecure          go on with a host key that nobody checked; without either of the two it is refused, and its fingerprint told\n"
    "  --host-keys NAME,.. host key names in order of preference: ssh-ed25519, ecdsa-sha2-nistp256, ecdsa-sha2-nistp384,\n"
    "                      ecdsa-sha2-nistp521, rsa-sha2-512, rsa-sha2-256; else these, and ahead of the others those that FILE has a key for\n"
    "  --login USER        go on behind the service: log in, run cat, and send data until the exchanges that are asked for are complete; what\n"
    "                      comes back must be the same\n"
    "  --key FILE          log in with this private key, in a form of --host-key's; else by the method none\n"
    "  --rekeyed N         with --login: send data until the peer has asked for N exchanges\n"
    "  --host-key FILE     a private key, in PEM or OpenSSH form, without a passphrase\n"
    "  --listen ADDRESS    where to listen, of IPv4 or IPv6 (" LISTEN_AT ")\n"
    "  --x-begins HEX      for tests: draw the ephemeral key until X begins with these 1 or 2 bytes, and print as --show-x does\n"
    "  --echo              go on behind the service: let anybody in by the method none, and send back what comes for the first command\n"
    "  --count N           connections to serve, one after the other (1); exit 0 if every exchange was completed\n"
    "options:\n"
    "  --methods NAME,..   key exchange methods in order of preference: curve25519-sha256, curve25519-sha256@libssh.org,\n"
    "                      curve448-sha512, ecdh-sha2-nistp256, ecdh-sha2-nistp384, ecdh-sha2-nistp521\n"
    "%s"
    "  --rekey N           ask for N exchanges behind the first (0): behind the service, with --login and --echo between data\n"
    "  --turns NAME,..     methods of the later exchanges, each of which offers one alone, in turn\n"
    "  --ciphers NAME,..   of aes256-ctr and aes128-ctr, in order of preference; NAME,../NAME,.. is to the server and to the client\n"
    "  --macs NAME,..      of hmac-sha2-256, hmac-sha2-512 and these with -etm@openssh.com behind them, likewise\n"
    "  --no-strict         do not offer strict key exchange\n"
    "  --no-service        end at NEWKEYS\n"
    "  --show              print each message and step, the core's number for it, and how far the room is filled\n"
    "  --show-x            for tests: print the first two bytes of X, which are a secret\n"
    "  --timeout SECONDS   what one connection may take (20)\n"
    "PORT 0 of a server is any free port; 'listening on PORT' is printed first, with --listen 'listening on PORT at ADDRESS'.\n";

/* Whether the libcrypto that runs has what the hybrids take beside a curve. */
static bool has_hybrids(void)
{
    return makes_method(CASTULFRISA_MLKEM768_NISTP256_SHA256) && makes_method(CASTULFRISA_MLKEM1024_NISTP384_SHA384)
        && makes_method(CASTULFRISA_MLKEM768_X25519_SHA256);
}

static int print_help(void)
{
    char hybrids[256];
    if (has_hybrids()) snprintf(hybrids, sizeof hybrids, "                      and, ahead of these, " HYBRIDS "\n");
    else
        snprintf(hybrids, sizeof hybrids, "                      no hybrids: this libcrypto has no ML-KEM (%s; it is there from OpenSSL 3.5 on)\n",
                 OpenSSL_version(OPENSSL_VERSION));
    return printf(help, hybrids) < 0 || fflush(stdout) != 0 ? FAILED : DONE;
}

static int print_version(void)
{
    return printf("dock, castulfrisa %d (%s)\n", CASTULFRISA_VERSION, OpenSSL_version(OPENSSL_VERSION)) < 0 || fflush(stdout) != 0 ? FAILED : DONE;
}

struct command {
    struct settings set;
    struct host_key keys[HOST_KEYS_MOST], login_key;
    struct known_hosts known;
    const char *known_path, *address; /* NULL: not asked for */
    char host_keys[512], port[8];
    long count;
};

/* ---- values of options */

static bool whole_number(const char *text, long least, long most, long *value)
{
    char *end;
    errno = 0;
    *value = strtol(text, &end, 10);
    return text[0] >= '0' && text[0] <= '9' && *end == 0 && errno == 0 && *value >= least && *value <= most;
}

static bool is_own_method(span name) { return makes_method(castulfrisa_method_number(name.at, name.len)); }

static bool is_own_scheme(span name) { return scheme_named(name.at, name.len) != NULL; }

static bool is_own_cipher(span name) { return cipher_named(name) != NULL; }

static bool is_own_mac(span name) { return mac_named(name) != NULL; }

/* Whether every name of a comma-separated list is one of ours. */
static bool all_names(span list, bool (*own)(span))
{
    for (;;) {
        const uint8_t *comma = memchr(list.at, ',', list.len);
        size_t len = comma == NULL ? list.len : (size_t)(comma - list.at);
        if (!own((span){list.at, len})) return false;
        if (comma == NULL) return true;
        list = (span){comma + 1, list.len - len - 1};
    }
}

/* One list for both directions, or one for each with a slash in between. */
static bool read_directions(const char *text, bool (*own)(span), span lists[2])
{
    const char *slash = strchr(text, '/');
    lists[TO_SERVER] = slash == NULL ? text_span(text) : (span){(const uint8_t *)text, (size_t)(slash - text)};
    lists[TO_CLIENT] = text_span(slash == NULL ? text : slash + 1);
    return all_names(lists[TO_SERVER], own) && all_names(lists[TO_CLIENT], own);
}

static int digit(char c)
{
    static const char digits[] = "0123456789abcdef0123456789ABCDEF";
    const char *at = c == 0 ? NULL : strchr(digits, c);
    return at == NULL ? -1 : (int)((at - digits) % 16);
}

static bool read_hex(const char *text, uint8_t *out, size_t most, size_t *len)
{
    size_t n = strlen(text) / 2;
    if (strlen(text) % 2 != 0 || n == 0 || n > most) return false;
    for (size_t i = 0; i < n; i++) {
        int high = digit(text[2 * i]), low = digit(text[2 * i + 1]);
        if (high < 0 || low < 0) return false;
        out[i] = (uint8_t)(high * 16 + low);
    }
    *len = n;
    return true;
}

/* ---- the command */

static int misused(const char *what, const char *value)
{
    trouble("%s%s%s (see dock --help)", what, value == NULL ? "" : ": ", value == NULL ? "" : value);
    return USAGE;
}

static bool is_option(const char *given, const char *name) { return strcmp(given, name) == 0; }

/* An option without a value. */
static bool take_flag(struct settings *set, bool client, const char *name)
{
    if (is_option(name, "--show")) set->show = true;
    else if (is_option(name, "--show-x")) set->show_x = true;
    else if (client && is_option(name, "--insecure")) set->insecure = true;
    else if (is_option(name, "--no-strict")) set->not_strict = true;
    else if (is_option(name, "--no-service")) set->no_service = true;
    else if (!client && is_option(name, "--echo")) set->echo = true;
    else return false;
    return true;
}

/* One option with its value. */
static int take_option(struct command *c, bool client, const char *name, const char *value)
{
    struct settings *set = &c->set;
    long number;
    if (is_option(name, "--methods")) {
        if (!all_names(text_span(value), is_own_method)) return misused("no list of methods that are made here", value);
        set->methods = value;
    } else if (is_option(name, "--turns")) {
        if (!all_names(text_span(value), is_own_method)) return misused("no list of methods that are made here", value);
        set->turns = value;
    } else if (is_option(name, "--rekey")) {
        if (!whole_number(value, 0, 1000000000, &set->rekeyings)) return misused("no number of exchanges", value);
    } else if (is_option(name, "--ciphers")) {
        if (!read_directions(value, is_own_cipher, set->ciphers)) return misused("no list of ciphers that are made here", value);
    } else if (is_option(name, "--macs")) {
        if (!read_directions(value, is_own_mac, set->macs)) return misused("no list of MACs that are made here", value);
    } else if (is_option(name, "--timeout")) {
        if (!whole_number(value, 1, 86400, &number)) return misused("no number of seconds", value);
        set->timeout = (int)number;
    } else if (client && is_option(name, "--host-keys")) {
        if (!all_names(text_span(value), is_own_scheme)) return misused("no list of host key names that are verified here", value);
        set->host_keys = value;
    } else if (client && is_option(name, "--known-hosts")) {
        if (c->known_path != NULL) return misused("--known-hosts given twice", NULL);
        c->known_path = value;
    } else if (client && is_option(name, "--login")) {
        set->user = value;
    } else if (client && is_option(name, "--key")) {
        if (set->login_key != NULL) return misused("--key given twice", NULL);
        if (!load_host_key(value, &c->login_key)) return FAILED;
        set->login_key = &c->login_key;
    } else if (client && is_option(name, "--rekeyed")) {
        if (!whole_number(value, 0, 1000000000, &set->peer_rekeyings)) return misused("no number of exchanges", value);
    } else if (!client && is_option(name, "--host-key")) {
        if (set->key_count == HOST_KEYS_MOST) return misused("too many host keys", NULL);
        if (!load_host_key(value, &c->keys[set->key_count])) return FAILED;
        set->key_count++;
    } else if (!client && is_option(name, "--listen")) {
        if (!link_is_address(value)) return misused("no address of IPv4 or IPv6", value);
        c->address = value;
    } else if (!client && is_option(name, "--x-begins")) {
        if (!read_hex(value, set->x_begins, sizeof set->x_begins, &set->x_begins_len)) return misused("no 1 or 2 bytes in hex", value);
        set->show_x = true;
    } else if (!client && is_option(name, "--count")) {
        if (!whole_number(value, 1, 1000000000, &c->count)) return misused("no number of connections", value);
    } else
        return misused("no such option here", name);
    return DONE;
}

static int take_options(struct command *c, bool client, char **arguments)
{
    for (; *arguments != NULL; arguments++) {
        if (take_flag(&c->set, client, *arguments)) continue;
        if (strncmp(*arguments, "--", 2) != 0) return misused("one argument too many", *arguments);
        if (arguments[1] == NULL) return misused("no value or no such option", *arguments);
        int result = take_option(c, client, arguments[0], arguments[1]);
        if (result != DONE) return result;
        arguments++;
    }
    return DONE;
}

/* The names that the host keys can sign for, in the order of the keys. */
static void list_host_keys(struct command *c)
{
    size_t len = 0;
    for (size_t i = 0; i < c->set.key_count; i++)
        for (size_t j = 0; j < scheme_count; j++) {
            bool listed = false;
            for (size_t other = 0; other < i; other++) listed |= strcmp(c->keys[other].type, c->keys[i].type) == 0;
            if (listed || strcmp(schemes[j].key_type, c->keys[i].type) != 0) continue;
            len += (size_t)snprintf(c->host_keys + len, sizeof c->host_keys - len, "%s%s", len == 0 ? "" : ",", schemes[j].name);
        }
    c->set.host_keys = c->host_keys;
}

/* All names, those of the types that are known for the host ahead of the others: what the server then chooses can be checked. */
static void prefer_known(struct command *c)
{
    size_t len = 0;
    for (int known = 1; known >= 0; known--)
        for (size_t i = 0; i < scheme_count; i++)
            if (known_type(&c->known, schemes[i].key_type) == (known == 1))
                len += (size_t)snprintf(c->host_keys + len, sizeof c->host_keys - len, "%s%s", len == 0 ? "" : ",", schemes[i].name);
    c->set.host_keys = c->host_keys;
}

static int run_client(struct command *c, char **arguments)
{
    long port;
    if (arguments[0] == NULL || arguments[1] == NULL) return misused("client needs HOST and PORT", NULL);
    if (!whole_number(arguments[1], 1, 65535, &port)) return misused("no port", arguments[1]);
    snprintf(c->port, sizeof c->port, "%ld", port);
    c->set.host = arguments[0];
    c->set.port = c->port;
    int result = take_options(c, true, arguments + 2);
    if (result != DONE) return result;
    if (c->set.user == NULL && (c->set.login_key != NULL || c->set.peer_rekeyings > 0)) return misused("--key and --rekeyed need --login", NULL);
    if (c->known_path != NULL) {
        if (c->set.insecure) return misused("--insecure with --known-hosts", NULL);
        if (!known_read(&c->known, c->known_path, c->set.host, c->set.port)) return FAILED;
        c->set.known_hosts = &c->known;
    }
    if (c->set.host_keys == NULL) prefer_known(c);
    bool done = connect_as_client(&c->set);
    wipe_stack();
    return done ? DONE : FAILED;
}

static int run_server(struct command *c, char **arguments)
{
    long number;
    int listener;
    if (arguments[0] == NULL) return misused("server needs PORT", NULL);
    if (!whole_number(arguments[0], 0, 65535, &number)) return misused("no port", arguments[0]);
    int result = take_options(c, false, arguments + 1);
    if (result != DONE) return result;
    if (c->set.key_count == 0) return misused("server needs --host-key", NULL);
    list_host_keys(c);

    uint16_t port = (uint16_t)number;
    if (!link_listen(&listener, c->address == NULL ? LISTEN_AT : c->address, &port)) return FAILED;
    if (c->address == NULL) printf("listening on %u\n", (unsigned)port);
    else printf("listening on %u at %s\n", (unsigned)port, c->address);
    fflush(stdout);
    for (long i = 0; i < c->count; i++) {
        if (!connect_as_server(&c->set, listener)) result = FAILED;
        wipe_stack();
    }
    close(listener);
    return result;
}

int main(int count, char **arguments)
{
    static struct command c = {.set = {.timeout = TIMEOUT}, .count = 1};
    int result;

    unsigned long version = castulfrisa_version();
    if (version != CASTULFRISA_VERSION) return trouble("the library is of version %lu, not %d", version, CASTULFRISA_VERSION), FAILED;
    c.set.keys = c.keys;
    signal(SIGPIPE, SIG_IGN); /* a reader of our output that went away is a failure like others */
    if (count < 2) return misused("client or server?", NULL);
    for (int i = 1; i < count; i++) {
        if (is_option(arguments[i], "--help") || is_option(arguments[i], "-h")) return print_help();
        if (is_option(arguments[i], "--version")) return print_version();
    }
    c.set.methods = has_hybrids() ? HYBRIDS "," METHODS : METHODS;
    (void)read_directions(CIPHERS, is_own_cipher, c.set.ciphers);
    (void)read_directions(MACS, is_own_mac, c.set.macs);

    if (is_option(arguments[1], "client")) result = run_client(&c, arguments + 2);
    else if (is_option(arguments[1], "server")) result = run_server(&c, arguments + 2);
    else result = misused("neither client nor server", arguments[1]);

    for (size_t i = 0; i < c.set.key_count; i++) EVP_PKEY_free(c.keys[i].key);
    EVP_PKEY_free(c.login_key.key);
    known_end(&c.known);
    return result;
}
