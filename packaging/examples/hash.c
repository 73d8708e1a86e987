/* The library's version, and SHA-256 of "abc", fed in two parts. */
#include <castulfrisa.h>
#include <stdio.h>

static uint64_t sha256_of_abc(uint8_t digest[CASTULFRISA_H_SIZE])
{
    uint8_t hash[CASTULFRISA_HASH_SIZE];
    uint64_t number;

    number = castulfrisa_hash_start(hash, sizeof hash,
        CASTULFRISA_SHA256);
    if (number != CASTULFRISA_OK) return number;
    number = castulfrisa_hash_feed(hash, sizeof hash,
        (const uint8_t *)"a", 1);
    if (number != CASTULFRISA_OK) return number;
    number = castulfrisa_hash_feed(hash, sizeof hash,
        (const uint8_t *)"bc", 2);
    if (number != CASTULFRISA_OK) return number;
    return castulfrisa_hash_finish(hash, sizeof hash, digest);
}

int main(void)
{
    uint8_t digest[CASTULFRISA_H_SIZE];
    uint64_t number;
    int i;

    printf("version %u\n", (unsigned)castulfrisa_version());
    if (castulfrisa_version() != CASTULFRISA_VERSION) {
        fprintf(stderr, "the header is of version %u\n",
            (unsigned)CASTULFRISA_VERSION);
        return 1;
    }
    number = sha256_of_abc(digest);
    if (number != CASTULFRISA_OK) {
        fprintf(stderr, "%u: %s\n", (unsigned)number,
            castulfrisa_text(number));
        return 1;
    }
    for (i = 0; i < CASTULFRISA_SHA256; i++) printf("%02x", digest[i]);
    putchar('\n');
    return 0;
}
