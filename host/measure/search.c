/* The search for the first nonzero byte of X and a loop over single bytes (host/measure/search.ll).

   usage: search ZEROS...       what a call of each takes past so many zeros in front of 66 bytes: nanoseconds, the medians of TURNS turns. Each turn has
                                all of them, so that a slow moment of the machine meets all alike
          search once ZEROS     calls each once, for a counter of instructions

   Ahead of the times both are held to the right answer, over every length up to LONGEST. PAD moves the functions and the loops that call them: a call
   of a few cycles goes by where it stands. Exits 0, 1 where an answer is wrong, 2 where it is called wrongly. */
#define _XOPEN_SOURCE 700
#include <inttypes.h>
#include <stdio.h>
#include <stdlib.h>
#include <string.h>
#include <time.h>

#ifndef PAD
#define PAD 0
#endif
#define TURNS 1001
#define EACH 1024
#define CASES_MOST 8
#define X_SIZE 66
#define LONGEST 80
#define TEXT_OF(n) #n
#define TEXT(n) TEXT_OF(n)
#define MOVE(section) __asm__(".section " section ",\"ax\"\n.space " TEXT(PAD) "\n.previous")

uint64_t search(const uint8_t *x, uint64_t len), by_bytes(const uint8_t *x, uint64_t len);

static uint8_t x[LONGEST + 8];

/* Zeros, then a byte, and such bytes to the end; the bytes behind it are of the other kind. */
static void fill(size_t in_front, size_t len, uint8_t byte, uint8_t behind)
{
    memset(x, 0, in_front);
    memset(x + in_front, byte, len - in_front);
    memset(x + len, behind, sizeof x - len);
}

static int right(void)
{
    static const uint8_t bytes[] = {1, 0x80, 0xff};
    size_t len, in_front, i;
    for (len = 0; len <= LONGEST; len++)
        for (in_front = 0; in_front <= len; in_front++)
            for (i = 0; i < sizeof bytes; i++) {
                fill(in_front, len, bytes[i], 0);
                if (search(x, len) != in_front || by_bytes(x, len) != in_front) return 0;
                fill(in_front, len, bytes[i], bytes[i]);
                if (search(x, len) != in_front || by_bytes(x, len) != in_front) return 0;
            }
    return 1;
}

static double now(void)
{
    struct timespec t;
    clock_gettime(CLOCK_MONOTONIC, &t);
    return (double)t.tv_sec * 1e9 + (double)t.tv_nsec;
}

MOVE(".text.turns");
MOVE(".text.turns_end");

/* The compiler is to know neither what goes in nor that nobody reads what comes out. */
#define TURN(name)                                                                          \
    static __attribute__((noinline, section(".text.turns"))) double turn_of_##name(void)    \
    {                                                                                       \
        const uint8_t *from = x;                                                            \
        uint64_t len = X_SIZE, at;                                                          \
        double began = now();                                                               \
        int i;                                                                              \
        for (i = 0; i < EACH; i++) {                                                        \
            __asm__ volatile("" : "+r"(from), "+r"(len));                                   \
            at = name(from, len);                                                           \
            __asm__ volatile("" : : "r"(at));                                               \
        }                                                                                   \
        return (now() - began) / EACH;                                                      \
    }
TURN(search)
TURN(by_bytes)

static int before(const void *a, const void *b)
{
    double first = *(const double *)a, second = *(const double *)b;
    return (first > second) - (first < second);
}

static double median(double *turns)
{
    qsort(turns, TURNS, sizeof *turns, before);
    return turns[TURNS / 2];
}

static size_t zeros_of(const char *word)
{
    char *end;
    unsigned long zeros = strtoul(word, &end, 10);
    if (*word != '\0' && *end == '\0' && zeros <= X_SIZE) return zeros;
    fprintf(stderr, "usage: search ZEROS... | once ZEROS\n");
    exit(2);
}

static int wrong_answer(void)
{
    fprintf(stderr, "search: a wrong answer\n");
    return 1;
}

int main(int words, char **word)
{
    static double searches[CASES_MOST][TURNS], loops[CASES_MOST][TURNS];
    int cases = words - 1, i, turn;
    if (words == 3 && strcmp(word[1], "once") == 0) {
        uint64_t due = zeros_of(word[2]), at, at_by_bytes;
        fill(due, X_SIZE, 0x80, 0x80);
        at = search(x, X_SIZE);
        at_by_bytes = by_bytes(x, X_SIZE);
        return at == due && at_by_bytes == due ? 0 : wrong_answer();
    }
    if (cases < 1 || cases > CASES_MOST) zeros_of("");
    if (!right()) return wrong_answer();
    for (turn = 0; turn < TURNS; turn++)
        for (i = 0; i < cases; i++) {
            fill(zeros_of(word[1 + i]), X_SIZE, 0x80, 0x80);
            searches[i][turn] = turn_of_search();
            loops[i][turn] = turn_of_by_bytes();
        }
    for (i = 0; i < cases; i++) printf("%f %f\n", median(searches[i]), median(loops[i]));
    return 0;
}
