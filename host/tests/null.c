/* NULL with length 0, for every slice of every call that can be empty: a set-up of no columns and no pool. */
#include <puffwidget.h>
#include <stdio.h>

#define EMPTY NULL, 0
#define MUST(what, is)                                                    \
    do {                                                                  \
        if ((what) != (is)) return printf("line %d: " #what "\n", __LINE__), 1; \
    } while (0)

int main(void) {
    uint8_t state[PW_STATE_BYTES], books[4 + 20 * 1 + 4 * 1 * 2], row[PW_ROW_BYTES], front[PW_FRONT_BYTES], strip[PW_STRIP_BYTES];
#define MEMORY state, sizeof state, EMPTY, EMPTY, books, sizeof books
    MUST(pw_new(MEMORY, EMPTY, 1, 1, 1, 1, 1), 0);
    MUST(pw_push_batch(MEMORY, EMPTY, EMPTY, 1), 0);
    MUST(pw_has_completed_batch(state, sizeof state), 1);
    MUST(pw_push_batch(MEMORY, EMPTY, EMPTY, 1), 9);
    MUST(pw_finish_buffered_batch(MEMORY), 0);
    MUST(pw_register_buffer(MEMORY, EMPTY, 0), 0);
    MUST(pw_read_buffer(MEMORY, 0, EMPTY), 0);
    MUST(pw_buffer_refusal(MEMORY, 0), 0);
    MUST(pw_read_row(MEMORY, 0, 0, row, sizeof row), 13);
    MUST(pw_front_batch(MEMORY, front, sizeof front), 1);
    MUST(pw_let_go(MEMORY, 0), 0);
    MUST(pw_strip_new(strip, sizeof strip), 0);
    MUST(PW_REFUSAL(pw_strip_take(MEMORY, EMPTY, EMPTY)), PW_REFUSED_SET_UP);
    MUST(pw_next_completed_batch(MEMORY), 1);

    /* no state, no books: refused with 1, or answered as of a state of zeros */
#define NOTHING EMPTY, EMPTY, EMPTY, EMPTY
    MUST(pw_new(NOTHING, EMPTY, 1, 1, 1, 1, 1), 1);
    MUST(pw_push_batch(NOTHING, EMPTY, EMPTY, 1), 1);
    MUST(pw_finish_buffered_batch(NOTHING), 1);
    MUST(PW_REFUSAL(pw_next_completed_batch(NOTHING)), 1);
    MUST(PW_REFUSAL(pw_register_buffer(NOTHING, EMPTY, 0)), 1);
    MUST(pw_let_go(NOTHING, 0), 1);
    MUST(pw_buffer_refusal(NOTHING, 0), 1);
    MUST(pw_read_buffer(NOTHING, 0, EMPTY), 0);
    MUST(pw_read_row(NOTHING, 0, 0, EMPTY), 1);
    MUST(pw_set_biggest_coalesce_batch_size(EMPTY, 1, 1), 1);
    MUST(pw_biggest_coalesce_batch_size(EMPTY), 0);
    MUST(pw_get_buffered_rows(EMPTY), 0);
    MUST(pw_has_completed_batch(EMPTY), 0);
    MUST(pw_is_empty(EMPTY), 1);
    MUST(PW_REFUSAL(pw_front_batch(NOTHING, EMPTY)), 1);
    MUST(pw_strip_new(EMPTY), 1);
    MUST(PW_REFUSAL(pw_strip_read(NOTHING, strip, sizeof strip, EMPTY)), 1);
    MUST(PW_REFUSAL(pw_strip_take(NOTHING, strip, sizeof strip, EMPTY)), 1);
    puts("NULL with length 0: 32 calls answered");
    return 0;
}
