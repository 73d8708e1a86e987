/* Sizes and places in the header, held when this is compiled. It needs no C library: `gcc -m32 -ffreestanding -fsyntax-only` holds
   them for 32 bits as well; the header's test holds them for the machine's own. */
#include "castulfrisa.h"
#include <stddef.h>

#ifdef __cplusplus
#define HOLDS(what) static_assert(what, #what)
#else
#define HOLDS(what) _Static_assert(what, #what)
#endif

/* What crosses as a pointer is a run of so many 64-bit numbers, in this order; a field may be a run of its own. */
#define RUN(type, numbers) HOLDS(sizeof(type) == 8 * (numbers))
#define FIELD(type, field, from, numbers) HOLDS(offsetof(type, field) == 8 * (from) && sizeof(((type *)0)->field) == 8 * (numbers))

RUN(castulfrisa_part, 2);
FIELD(castulfrisa_part, start, 0, 1);
FIELD(castulfrisa_part, len, 1, 1);
RUN(castulfrisa_string, 4);
FIELD(castulfrisa_string, body, 0, 2);
FIELD(castulfrisa_string, rest, 2, 2);
RUN(castulfrisa_sizes, 8);
FIELD(castulfrisa_sizes, c_len, 0, 1);
FIELD(castulfrisa_sizes, c_classical, 1, 1);
FIELD(castulfrisa_sizes, s_len, 2, 1);
FIELD(castulfrisa_sizes, s_classical, 3, 1);
FIELD(castulfrisa_sizes, x_len, 4, 1);
FIELD(castulfrisa_sizes, digest_len, 5, 1);
FIELD(castulfrisa_sizes, hybrid, 6, 1);
FIELD(castulfrisa_sizes, zero_check, 7, 1);
RUN(castulfrisa_cursor, 2);
FIELD(castulfrisa_cursor, at, 0, 1);
FIELD(castulfrisa_cursor, end, 1, 1);
RUN(castulfrisa_opened, 7);
FIELD(castulfrisa_opened, cookie, 0, 2);
FIELD(castulfrisa_opened, follows, 2, 1);
FIELD(castulfrisa_opened, reserved, 3, 1);
FIELD(castulfrisa_opened, cursor, 4, 2);
FIELD(castulfrisa_opened, position, 6, 1);
RUN(castulfrisa_proposed, 2);
FIELD(castulfrisa_proposed, count, 0, 1);
FIELD(castulfrisa_proposed, bad_list, 1, 1);
RUN(castulfrisa_choice, 5);
FIELD(castulfrisa_choice, method, 0, 1);
FIELD(castulfrisa_choice, host_key, 1, 2);
FIELD(castulfrisa_choice, ignore_client, 3, 1);
FIELD(castulfrisa_choice, ignore_server, 4, 1);
RUN(castulfrisa_init, 3);
FIELD(castulfrisa_init, c, 0, 2);
FIELD(castulfrisa_init, position, 2, 1);
RUN(castulfrisa_reply, 7);
FIELD(castulfrisa_reply, host_key, 0, 2);
FIELD(castulfrisa_reply, s, 2, 2);
FIELD(castulfrisa_reply, signature, 4, 2);
FIELD(castulfrisa_reply, position, 6, 1);
RUN(castulfrisa_signed, 2);
FIELD(castulfrisa_signed, reply, 0, 1);
FIELD(castulfrisa_signed, k, 1, 1);
RUN(castulfrisa_progress, 4);
FIELD(castulfrisa_progress, stage, 0, 1);
FIELD(castulfrisa_progress, fail, 1, 1);
FIELD(castulfrisa_progress, role, 2, 1);
FIELD(castulfrisa_progress, method, 3, 1);
RUN(castulfrisa_session, 2);
FIELD(castulfrisa_session, id_len, 0, 1);
FIELD(castulfrisa_session, completed, 1, 1);

/* The sizes of buffers are those of what goes into them: a message's number, strings, and the hash input of method 8. */
#define STRING(body) (4 + (body))
HOLDS(CASTULFRISA_INIT == 1 + STRING(CASTULFRISA_VALUE_MOST));
HOLDS(CASTULFRISA_REPLY == 1 + 2 * STRING(CASTULFRISA_BLOB_MOST) + STRING(CASTULFRISA_VALUE_MOST));
HOLDS(CASTULFRISA_K == STRING(1 + CASTULFRISA_X_MOST));
/* mark, stage, fail number, role and method, seven lengths of two bytes, K and H, and of the session the identifier's length, how many exchanges
   were completed, and the identifier */
HOLDS(CASTULFRISA_EXCHANGE == 5 + 2 * 7 + CASTULFRISA_K + CASTULFRISA_H_SIZE + 2 + 8 + CASTULFRISA_H_SIZE);
/* A to F */
HOLDS(CASTULFRISA_IV_C2S == 'A' && CASTULFRISA_IV_S2C == 'B' && CASTULFRISA_CIPHER_KEY_C2S == 'C' && CASTULFRISA_CIPHER_KEY_S2C == 'D'
      && CASTULFRISA_MAC_KEY_C2S == 'E' && CASTULFRISA_MAC_KEY_S2C == 'F');
/* kind, total, bytes that wait, value, and the longest block */
HOLDS(CASTULFRISA_HASH_SIZE == 1 + 8 + 8 + 64 + 128);
HOLDS(CASTULFRISA_H_SIZE == CASTULFRISA_SHA512);
/* no hash input is more than a hash is fed */
HOLDS(CASTULFRISA_ROOM <= CASTULFRISA_HASH_MOST);
HOLDS(CASTULFRISA_ROOM == 2 * STRING(CASTULFRISA_V_MOST) + 2 * STRING(CASTULFRISA_KEXINIT_MOST) + STRING(CASTULFRISA_BLOB_MOST)
      + 2 * STRING(CASTULFRISA_VALUE_MOST) + STRING(48));
