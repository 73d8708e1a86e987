/* Every call's result ignored: with -Werror this must not compile, and each line for its own sake (`make c-test`). */
#include "castulfrisa.h"

void ignore(uint8_t *p, uint64_t n, uint64_t *count, castulfrisa_part *part, castulfrisa_string *parts, const castulfrisa_bytes *lists);

void ignore(uint8_t *p, uint64_t n, uint64_t *count, castulfrisa_part *part, castulfrisa_string *parts, const castulfrisa_bytes *lists)
{
    int64_t sign;
    castulfrisa_sizes sizes;
    castulfrisa_proposed proposed;
    castulfrisa_opened opened;
    castulfrisa_cursor cursor = {0, 0};
    castulfrisa_choice choice;
    castulfrisa_init init;
    castulfrisa_reply reply;
    castulfrisa_signed counts;
    castulfrisa_progress told;
    castulfrisa_session session;

    castulfrisa_read_string(p, n, parts);
    castulfrisa_write_string(p, n, p, n, count);
    castulfrisa_read_mpint(p, n, &sign, parts);
    castulfrisa_write_mpint(p, n, p, n, count);
    castulfrisa_method_number(p, n);
    castulfrisa_method_name(n, p, n, count);
    castulfrisa_method_sizes(n, &sizes);
    castulfrisa_write_kexinit(p, n, p, n, p, n, count, n, n, &proposed);
    castulfrisa_open_list(p, n, n, &opened);
    castulfrisa_next_name(p, n, &cursor, part);
    castulfrisa_choose(p, n, p, n, &choice);
    castulfrisa_start(p, n, n, n, p, n, p, n, p, n, p, n, p, n);
    castulfrisa_own_c(p, n, p, n, p, n, p, n, count);
    castulfrisa_read_init(p, n, p, n, p, n, &init);
    castulfrisa_read_reply(p, n, p, n, p, n, &reply);
    castulfrisa_take_secret(p, n, p, n, n, n, p, n, n, p, n, p, n, p, n, count, p);
    castulfrisa_sign(p, n, p, n, p, n, p, n, p, n, &counts);
    castulfrisa_verdict(p, n, p, n, n, n, p, n, count);
    castulfrisa_again(p, n, p, n, n, p, n, p, n);
    castulfrisa_init_c(p, n, p, n, p, n, part);
    castulfrisa_reply_host_key(p, n, p, n, p, n, part);
    castulfrisa_reply_s(p, n, p, n, p, n, part);
    castulfrisa_reply_signature(p, n, p, n, p, n, part);
    castulfrisa_state(p, n, &told);
    castulfrisa_session_id(p, n, &session, p);
    castulfrisa_derive(p, n, n, n, p, n);
    castulfrisa_hash_start(p, n, n);
    castulfrisa_hash_feed(p, n, p, n);
    castulfrisa_hash_finish(p, n, p);
    castulfrisa_version();
    castulfrisa_join(lists, p, n, count);
    castulfrisa_text(n);
    castulfrisa_field(p, n, n);
}
