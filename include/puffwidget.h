/* Puffwidget's batch coalescer, from C: small batches of rows in, batches of a target size out, in order.
 *
 * Link libpuffwidget.a (x86-64; `host/run archive` makes it). docs/HOST.md says what each call answers, docs/LAYOUT.md what lies where.
 *
 * - A slice is a pointer and then its length in bytes. NULL with length 0 is allowed everywhere: nothing is read or written through it.
 * - The caller owns all memory; nothing is allocated and nothing is kept between calls. No alignment is asked for.
 * - state, slots, pool and books are those of one set-up in every call. A slice that a call writes (a pointer without const) overlaps
 *   no other slice of that call.
 * - A refusal is a number, 0 for none; a refused call changed no byte. An answer of two numbers is a uint64_t: the refusal in the
 *   upper 32 bits (PW_REFUSAL), the value in the lower (PW_VALUE).
 * - All words in memory are little-endian.
 */
#ifndef PUFFWIDGET_H
#define PUFFWIDGET_H

#include <stddef.h>
#include <stdint.h>

#ifdef __cplusplus
extern "C" {
#endif

/* Bytes of the state, of a column's record, of pw_read_row's and of pw_front_batch's out, of a strip. */
#define PW_STATE_BYTES 304
#define PW_RECORD_BYTES 32
#define PW_ROW_BYTES 20
#define PW_FRONT_BYTES 512
#define PW_STRIP_BYTES 972

/* The third word of a record whose column has no bitmap. */
#define PW_NO_VALIDITY UINT32_MAX

#define PW_REFUSAL(answer) ((uint32_t)((uint64_t)(answer) >> 32))
#define PW_VALUE(answer) ((uint32_t)((uint64_t)(answer) & UINT32_MAX))

/* The kinds of columns, a word each in `kinds` and in a record. The bytes of a row:
 *     1   PW_INT8, PW_UINT8
 *     2   PW_INT16, PW_UINT16, PW_FLOAT16
 *     4   PW_INT32, PW_UINT32, PW_FLOAT32, PW_DATE32
 *     8   PW_INT64, PW_UINT64, PW_FLOAT64, PW_DATE64, PW_TIMESTAMP, PW_DURATION
 *     16  PW_DECIMAL128, PW_UTF8_VIEW, PW_BINARY_VIEW
 *     32  PW_DECIMAL256
 */
enum pw_kind {
    PW_INT8 = 1, PW_INT16, PW_INT32, PW_INT64, PW_UINT8, PW_UINT16, PW_UINT32, PW_UINT64, PW_FLOAT16, PW_FLOAT32,
    PW_FLOAT64, PW_DATE32, PW_DATE64, PW_TIMESTAMP, PW_DURATION, PW_DECIMAL128, PW_DECIMAL256, PW_UTF8_VIEW, PW_BINARY_VIEW
};

/* The refusals; docs/RUNBOOK.md says of each what to do. 8 can't arise. Those from 31 on are of one row of a match, in the strip's numbers. */
enum pw_refused {
    PW_REFUSED_SET_UP = 1, PW_REFUSED_RECORD_BYTES = 2, PW_REFUSED_TOO_MANY_ROWS = 3, PW_REFUSED_RECORD = 4,
    PW_REFUSED_OUTSIDE_BODY = 5, PW_REFUSED_NOT_HELD = 6, PW_REFUSED_INVALID_VIEW = 7, PW_REFUSED_START_PAST_RANGE = 8,
    PW_REFUSED_QUEUE_FULL = 9, PW_REFUSED_LIST_FULL = 10, PW_REFUSED_NO_NUMBER = 11, PW_REFUSED_NO_ROOM = 12,
    PW_REFUSED_NOT_THERE = 13, PW_REFUSED_STATE = 14, PW_REFUSED_OTHER_COLUMNS = 30, PW_REFUSED_OUT_OF_RANGE = 31,
    PW_REFUSED_NUMBER_NOT_ABOVE = 32, PW_REFUSED_EIGHTH_OUT = 33, PW_REFUSED_NOBODY_OUT = 34, PW_REFUSED_ALREADY_OUT = 35
};

/* Set-up: 0, or 1 and nothing changed. kinds: a word of 4 bytes a column, at most 16. The pool's size is its length. */
uint32_t pw_new(
    uint8_t *state, size_t state_len,
    const uint8_t *slots, size_t slots_len,
    const uint8_t *pool, size_t pool_len,
    uint8_t *books, size_t books_len,
    const uint8_t *kinds, size_t kinds_len,
    uint32_t target, uint32_t rows, uint32_t queue, uint32_t lists, uint32_t numbers);

/* Pushes all rows of a batch: 0, or the refusal; 0 rows are done, and records and body are not looked at. records: 32 bytes a column,
 * eight words: its kind; where its values start in body; where its bitmap starts there, or PW_NO_VALIDITY; the bitmap's first bit, 0
 * with no bitmap; where its list of buffers starts in body, 0 with no list; how many numbers the list has, a word each; 0; 0. */
uint32_t pw_push_batch(
    uint8_t *state, size_t state_len,
    uint8_t *slots, size_t slots_len,
    uint8_t *pool, size_t pool_len,
    uint8_t *books, size_t books_len,
    const uint8_t *records, size_t records_len,
    const uint8_t *body, size_t body_len,
    uint32_t rows);

/* Queues the buffered rows as a batch, if there are any: 0, or the refusal. */
uint32_t pw_finish_buffered_batch(
    uint8_t *state, size_t state_len,
    uint8_t *slots, size_t slots_len,
    const uint8_t *pool, size_t pool_len,
    uint8_t *books, size_t books_len);

/* Drops the front batch, which was read before: the refusal, and the rows dropped (0 on an empty queue). */
uint64_t pw_next_completed_batch(
    uint8_t *state, size_t state_len,
    const uint8_t *slots, size_t slots_len,
    const uint8_t *pool, size_t pool_len,
    uint8_t *books, size_t books_len);

/* Copies bytes into the pool, where they occupy capacity bytes: the refusal, and the buffer's number, which a list
 * names, the lowest that is free. A number is yours until you let it go; after that it may be somebody else's. */
uint64_t pw_register_buffer(
    const uint8_t *state, size_t state_len,
    const uint8_t *slots, size_t slots_len,
    uint8_t *pool, size_t pool_len,
    uint8_t *books, size_t books_len,
    const uint8_t *bytes, size_t bytes_len,
    uint32_t capacity);

/* Lets a buffer go; rows that were pushed keep their bytes: 0, or the refusal. The number may then be somebody else's. */
uint32_t pw_let_go(
    const uint8_t *state, size_t state_len,
    const uint8_t *slots, size_t slots_len,
    const uint8_t *pool, size_t pool_len,
    uint8_t *books, size_t books_len,
    uint32_t buffer);

/* The number beside pw_read_buffer: 0 exactly when that read is not refused. */
uint32_t pw_buffer_refusal(
    const uint8_t *state, size_t state_len,
    const uint8_t *slots, size_t slots_len,
    const uint8_t *pool, size_t pool_len,
    const uint8_t *books, size_t books_len,
    uint32_t buffer);

/* Copies a buffer's bytes to the front of out, as far as both go: how many the buffer has, 0 where the read is refused. */
uint64_t pw_read_buffer(
    const uint8_t *state, size_t state_len,
    const uint8_t *slots, size_t slots_len,
    const uint8_t *pool, size_t pool_len,
    const uint8_t *books, size_t books_len,
    uint32_t buffer,
    uint8_t *out, size_t out_len);

/* A row of the front batch, in the 20 bytes of out: five words, the first 0 null, 1 in its row, 2 in a buffer (docs/HOST.md). 0, or
 * the refusal and out as it was; 1 where out is not of 20 bytes. */
uint32_t pw_read_row(
    const uint8_t *state, size_t state_len,
    const uint8_t *slots, size_t slots_len,
    const uint8_t *pool, size_t pool_len,
    const uint8_t *books, size_t books_len,
    uint32_t column, uint32_t row,
    uint8_t *out, size_t out_len);

/* The front batch whole: its rows in the lower half of the answer; in out, of 512 bytes, 32 for each column: where its values, its
 * bitmap and its list begin in slots (8 bytes each, low first), how many numbers the list has, and the bytes of a row (4 bytes each).
 * The refusal in the upper half, and out as it was: 13 where nothing is queued, 1 where out is not of 512 bytes. */
uint64_t pw_front_batch(
    const uint8_t *state, size_t state_len,
    const uint8_t *slots, size_t slots_len,
    const uint8_t *pool, size_t pool_len,
    const uint8_t *books, size_t books_len,
    uint8_t *out, size_t out_len);

/* The limit, none where set is 0: 0, or 1 where state is not of 304 bytes. */
uint32_t pw_set_biggest_coalesce_batch_size(
    uint8_t *state, size_t state_len,
    uint32_t set, uint32_t rows);

/* 1 in the upper 32 bits where a limit is set, and the limit in the lower; 0 for none. */
uint64_t pw_biggest_coalesce_batch_size(const uint8_t *state, size_t state_len);

/* Rows that wait for more. */
uint32_t pw_get_buffered_rows(const uint8_t *state, size_t state_len);

/* 1 where a batch can be taken, else 0. */
uint32_t pw_has_completed_batch(const uint8_t *state, size_t state_len);

/* 1 where nothing is buffered and nothing can be taken, else 0. */
uint32_t pw_is_empty(const uint8_t *state, size_t state_len);

/* The player strip: 972 bytes of the caller's (docs/LAYOUT.md, "The strip"). An empty one: 0, or 1 where there are other than 972 bytes. */
uint32_t pw_strip_new(uint8_t *strip, size_t strip_len);

/* The strip reads the rows of the front batch, which stays: the refusal, and the rows read (0 on an empty queue). numbers: a byte a row, 0 where
 * it was accepted, else 31 to 35. Refused with 30 where the columns are not UInt64, UInt8, UInt8, Utf8View. */
uint64_t pw_strip_read(
    const uint8_t *state, size_t state_len,
    const uint8_t *slots, size_t slots_len,
    const uint8_t *pool, size_t pool_len,
    const uint8_t *books, size_t books_len,
    uint8_t *strip, size_t strip_len,
    uint8_t *numbers, size_t numbers_len);

/* The same, and then drops the batch. */
uint64_t pw_strip_take(
    uint8_t *state, size_t state_len,
    const uint8_t *slots, size_t slots_len,
    const uint8_t *pool, size_t pool_len,
    uint8_t *books, size_t books_len,
    uint8_t *strip, size_t strip_len,
    uint8_t *numbers, size_t numbers_len);

#ifdef __cplusplus
}
#endif

#endif
