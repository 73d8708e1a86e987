/* The command line of a test that takes no words: -h or --help says what it is, and anything else is answered with its first line and status 2. */
#ifndef HELP_H
#define HELP_H

#include <stdio.h>
#include <string.h>

/* The status to end with, or -1 to go on. */
static inline int helped(int argc, char **argv, const char *help)
{
    int asked = argc == 2 && (strcmp(argv[1], "-h") == 0 || strcmp(argv[1], "--help") == 0);
    if (argc < 2) return -1;
    if (asked) fputs(help, stdout);
    else fprintf(stderr, "%.*s\n", (int)strcspn(help, "\n"), help);
    return asked ? 0 : 2;
}

#endif
