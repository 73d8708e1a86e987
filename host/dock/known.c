/* Known hosts, in the form that sshd(8) has under SSH_KNOWN_HOSTS FILE FORMAT, and fingerprints. */
#include "dock.h"
#include <ctype.h>
#include <errno.h>
#include <stdlib.h>
#include <string.h>

#define DEFAULT_PORT "22"
#define NAME_MOST 300 /* of a host, with its port and a 0 at its end: DNS has names of 255 bytes at most */
#define SALT 20       /* bytes of a hashed name's salt, and of its hash: as many as SHA-1's digest has */

/* ---- the parts of a line */

/* Base64 in the one form that it has for these bytes: libcrypto's reader alone would take others too. out: 3 bytes for each 4 of text. */
static bool read_base64(const char *text, size_t text_len, uint8_t *out, size_t *len)
{
    if (text_len == 0 || text_len % 4 != 0 || text_len > INT32_MAX) return false;
    if (EVP_DecodeBlock(out, (const uint8_t *)text, (int)text_len) != (int)(text_len / 4 * 3)) return false;
    *len = text_len / 4 * 3 - (text[text_len - 1] == '=') - (text[text_len - 2] == '=');
    for (size_t at = 0; at < *len; at += 3) {
        char once_more[5];
        EVP_EncodeBlock((uint8_t *)once_more, out + at, *len - at < 3 ? (int)(*len - at) : 3);
        if (memcmp(once_more, text + at / 3 * 4, 4) != 0) return false;
    }
    return true;
}

/* '|1|salt|hash' */
static bool read_hashed(const char *names, uint8_t salt[SALT + 1], uint8_t hash[SALT + 1])
{
    size_t len;
    if (strncmp(names, "|1|", 3) != 0) return false;
    const char *first = names + 3, *second = strchr(first, '|');
    return second != NULL && second - first == (SALT + 2) / 3 * 4 && read_base64(first, (size_t)(second - first), salt, &len) && len == SALT
        && strlen(second + 1) == (SALT + 2) / 3 * 4 && read_base64(second + 1, strlen(second + 1), hash, &len) && len == SALT;
}

/* The key's bytes, which are of the type that the line names, and whole where the type is one of ours. The blob has room for the text. */
static bool read_key(const char *type, const char *text, struct known_key *key)
{
    if (!read_base64(text, strlen(text), key->blob, &key->len)) return false;
    const span blob = {key->blob, key->len};
    span rest = blob, first;
    if (!take_string(&rest, &first) || !span_is(first, type)) return false;
    for (size_t i = 0; i < scheme_count; i++)
        if (strcmp(schemes[i].key_type, type) == 0) return is_host_key(&schemes[i], blob);
    return true;
}

/* ---- names: those of a line are in letters of either case, that of the host is in small ones */

/* '*' is any text and '?' any one character. */
static bool pattern_matches(const char *pattern, size_t len, const char *name)
{
    size_t at = 0, star = 0;
    const char *behind_star = NULL; /* what the last star does not stand for */
    while (*name != 0) {
        if (at < len && pattern[at] == '*') {
            star = at++;
            behind_star = name;
        } else if (at < len && (pattern[at] == '?' || tolower((unsigned char)pattern[at]) == *name)) {
            at++;
            name++;
        } else if (behind_star != NULL) {
            at = star + 1;
            name = ++behind_star;
        } else
            return false;
    }
    while (at < len && pattern[at] == '*') at++;
    return at == len;
}

/* A pattern behind '!' that matches speaks for the whole list. */
static bool list_matches(const char *list, const char *name)
{
    bool found = false;
    for (;;) {
        bool negated = *list == '!';
        list += negated;
        size_t len = strcspn(list, ",");
        if (pattern_matches(list, len, name)) {
            if (negated) return false;
            found = true;
        }
        if (list[len] == 0) return found;
        list += len + 1;
    }
}

static bool hash_name(const uint8_t salt[SALT], const char *name, uint8_t out[SALT])
{
    size_t len;
    return EVP_Q_mac(NULL, "HMAC", NULL, "SHA1", NULL, salt, SALT, (const uint8_t *)name, strlen(name), out, SALT, &len) != NULL && len == SALT;
}

/* Whether the names of a line speak for this one; false where that cannot be told. */
static bool judge_names(const char *names, const char *name, bool *speak)
{
    uint8_t salt[SALT + 1], hash[SALT + 1], own[SALT];
    if (names[0] != '|') {
        *speak = list_matches(names, name);
        return true;
    }
    if (!read_hashed(names, salt, hash) || !hash_name(salt, name, own)) return false;
    *speak = memcmp(own, hash, SALT) == 0;
    return true;
}

/* Of the host that is asked for: its name, and what stands for it in a line: the name alone at port 22, else '[name]:port'. */
struct names { char plain[NAME_MOST], with_port[NAME_MOST]; };

static void make_small(char *name)
{
    for (; *name != 0; name++) *name = (char)tolower((unsigned char)*name);
}

static bool name_host(const char *host, const char *port, struct names *names)
{
    const bool alone = strcmp(port, DEFAULT_PORT) == 0;
    int plain = snprintf(names->plain, NAME_MOST, "%s", host);
    int with_port = alone ? plain : snprintf(names->with_port, NAME_MOST, "[%s]:%s", host, port);
    if (plain < 0 || plain >= NAME_MOST || with_port < 0 || with_port >= NAME_MOST) return false;
    if (alone) memcpy(names->with_port, names->plain, NAME_MOST);
    make_small(names->plain);
    make_small(names->with_port);
    return true;
}

/* ---- lines */

static const char no_memory[] = "no memory";

static const char *keep(struct known_hosts *known, struct known_key key)
{
    struct known_key *more = realloc(known->keys, (known->count + 1) * sizeof *more);
    if (more == NULL) {
        free(key.blob);
        return no_memory;
    }
    known->keys = more;
    known->keys[known->count++] = key;
    return NULL;
}

/* Keeps the key of a line that speaks for the host. NULL, or why the line is of no use here; a comment is of use. */
static const char *take_line(struct known_hosts *known, char *line, const struct names *host)
{
    static const char blank[] = " \t\r\n";
    char *rest = NULL;
    const char *word = strtok_r(line, blank, &rest);
    if (word == NULL || word[0] == '#') return NULL;
    if (strcmp(word, "@cert-authority") == 0) return "it is of a certification authority (@cert-authority), and certificates are not taken here";
    const bool revoked = strcmp(word, "@revoked") == 0;
    if (word[0] == '@' && !revoked) return "its marker is none";
    const char *names = revoked ? strtok_r(NULL, blank, &rest) : word;
    const char *type = strtok_r(NULL, blank, &rest), *text = strtok_r(NULL, blank, &rest);
    if (text == NULL || type[0] == '#') return "it does not have names, key type and key";
    if (names[0] == '@') return "it has two markers";

    /* A name without a port speaks for port 22 alone; but what is revoked by it is revoked at every port. */
    bool speak, at_any_port = false;
    if (!judge_names(names, host->with_port, &speak) || (revoked && !judge_names(names, host->plain, &at_any_port)))
        return "its hashed name cannot be read";
    struct known_key key = {.blob = malloc(strlen(text)), .revoked = revoked};
    if (key.blob == NULL) return no_memory;
    const bool good = read_key(type, text, &key);
    if (good && (speak || at_any_port)) return keep(known, key);
    free(key.blob);
    return good ? NULL : "its key is not well-formed, or of another type than it says";
}

bool known_read(struct known_hosts *known, const char *path, const char *host, const char *port)
{
    struct names names;
    if (!name_host(host, port, &names)) return trouble("a host's name of more than %d bytes", NAME_MOST - 1);
    FILE *file = fopen(path, "r");
    if (file == NULL) return trouble("%s: %s", path, strerror(errno));

    const char *why = NULL, *first_why = NULL;
    unsigned long number = 0, first = 0, unused = 0;
    char *line = NULL;
    size_t room = 0;
    ssize_t len;
    errno = 0;
    while (why != no_memory && (len = getline(&line, &room, file)) >= 0) {
        number++;
        why = memchr(line, 0, (size_t)len) != NULL ? "it has a byte 0" : take_line(known, line, &names);
        if (why != NULL && unused++ == 0) {
            first = number;
            first_why = why;
        }
        errno = 0;
    }
    const bool whole = why != no_memory && feof(file) && !ferror(file);
    if (!whole) trouble("%s: %s", path, why == no_memory ? why : strerror(errno));
    else if (unused > 0) trouble("known hosts: lines that are not used: %lu, the first is line %lu of %s: %s", unused, first, path, first_why);
    free(line);
    fclose(file);
    return whole;
}

void known_end(struct known_hosts *known)
{
    for (size_t i = 0; i < known->count; i++) free(known->keys[i].blob);
    free(known->keys);
    *known = (struct known_hosts){0};
}

/* ---- what they say of a key */

static span type_of(span blob)
{
    span type = {blob.at, 0};
    (void)take_string(&blob, &type); /* a type that is cut is none */
    return type;
}

static bool same_bytes(span a, span b) { return a.len == b.len && memcmp(a.at, b.at, a.len) == 0; }

enum known known_host(const struct known_hosts *known, span host_key)
{
    enum known answer = KNOWN_MISSING;
    for (size_t i = 0; i < known->count; i++) {
        const struct known_key *key = &known->keys[i];
        const span blob = {key->blob, key->len};
        const bool same = same_bytes(blob, host_key);
        if (same && key->revoked) return KNOWN_REVOKED;
        if (key->revoked) continue;
        if (same) answer = KNOWN_YES;
        else if (answer == KNOWN_MISSING && same_bytes(type_of(blob), type_of(host_key))) answer = KNOWN_DIFFERS;
    }
    return answer;
}

bool known_type(const struct known_hosts *known, const char *type)
{
    for (size_t i = 0; i < known->count; i++) {
        const struct known_key *key = &known->keys[i];
        const span blob = {key->blob, key->len};
        if (!key->revoked && span_is(type_of(blob), type) && known_host(known, blob) == KNOWN_YES) return true;
    }
    return false;
}

bool fingerprint(span host_key, char out[FINGERPRINT])
{
    uint8_t hash[CASTULFRISA_HASH_SIZE], digest[CASTULFRISA_H_SIZE];
    if (castulfrisa_hash_start(hash, sizeof hash, CASTULFRISA_SHA256) != CASTULFRISA_OK
        || castulfrisa_hash_feed(hash, sizeof hash, host_key.at, host_key.len) != CASTULFRISA_OK
        || castulfrisa_hash_finish(hash, sizeof hash, digest) != CASTULFRISA_OK) return false;
    memcpy(out, "SHA256:", 7);
    EVP_EncodeBlock((uint8_t *)out + 7, digest, CASTULFRISA_SHA256);
    out[strcspn(out, "=")] = 0;
    return true;
}
