/* What is printed: failures, the steps of --show, results. */
#include "dock.h"
#include <stdarg.h>
#include <stdlib.h>

/* Parts of it may be the peer's words: it stays one line, and no byte of it acts on a terminal (RFC 4251, 9.2). */
static void make_harmless(char *line)
{
    for (; *line != 0; line++)
        if ((unsigned char)*line < 32 || (unsigned char)*line > 126) *line = '?';
}

bool trouble(const char *format, ...)
{
    char line[512];
    va_list arguments;
    va_start(arguments, format);
    vsnprintf(line, sizeof line, format, arguments);
    va_end(arguments);
    make_harmless(line);
    fflush(stdout);
    fprintf(stderr, "dock: %s\n", line);
    return false;
}

void show(bool on, const char *direction, const char *what, long length, int number, long room)
{
    if (!on) return;
    printf("%-2s %-15s", direction, what);
    if (length >= 0) printf(" %5ld bytes", length);
    else if (number >= 0) printf("            ");
    if (number >= 0) printf("  number %d", number);
    if (room >= 0) printf("  room %ld of %d", room, CASTULFRISA_ROOM);
    putchar('\n');
    fflush(stdout);
}

void show_words(bool on, span words)
{
    char line[256];
    if (!on) return;
    snprintf(line, sizeof line, "%.*s", words.len < sizeof line ? (int)words.len : (int)sizeof line - 1, (const char *)words.at);
    make_harmless(line);
    printf("   \"%s\"\n", line);
    fflush(stdout);
}

void print_hex(const char *name, const uint8_t *bytes, size_t len)
{
    printf("%s ", name);
    for (size_t i = 0; i < len; i++) printf("%02x", bytes[i]);
    putchar('\n');
}
