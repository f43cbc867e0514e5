/* The match of match.rs, from C: three batches with nulls and long names in, batches of four rows out. */
#include <puffwidget.h>
#include <stdio.h>
#include <stdlib.h>
#include <string.h>

/* T 4, R 8, Q 2, columns UInt64 and Utf8View, B 3, N 8: docs/LAYOUT.md has the lengths. */
enum { ROWS = 8, QUEUE = 2, LISTS = 3, NUMBERS = 8, NUMBER_COLUMN = ROWS * 8 + 1, NAME_COLUMN = ROWS * 16 + 1 + 4 * LISTS };
static uint8_t state[PW_STATE_BYTES], slots[(QUEUE + 1) * (NUMBER_COLUMN + NAME_COLUMN)], pool[32768];
static uint8_t books[4 + 20 * NUMBERS + 4 * 3 * (QUEUE + 1)];
#define MEMORY state, sizeof state, slots, sizeof slots, pool, sizeof pool, books, sizeof books

static void word(uint8_t *at, uint32_t value) {
    for (int i = 0; i < 4; i++) at[i] = (uint8_t)(value >> (8 * i));
}

static uint32_t word_at(const uint8_t *at) {
    return at[0] | (uint32_t)at[1] << 8 | (uint32_t)at[2] << 16 | (uint32_t)at[3] << 24;
}

/* A refusal ends the program: its number is in docs/HOST.md. */
static void done(uint32_t refusal, const char *call) {
    if (refusal != 0) {
        fprintf(stderr, "%s: refused (%u)\n", call, refusal);
        exit(1);
    }
}

/* Where the parts of a pushed batch of three rows lie in its body. */
enum { RAIDS = 0, RAIDS_VALID = 24, VIEWS = 25, VIEWS_VALID = 73, LIST = 74, BODY = 78 };

static void record(uint8_t *at, uint32_t kind, uint32_t values, uint32_t validity, uint32_t list, uint32_t count) {
    uint32_t words[8] = {kind, values, validity, 0, list, count, 0, 0};
    for (int i = 0; i < 8; i++) word(at + 4 * i, words[i]);
}

/* A view: up to 12 bytes in itself, else the first 4, the place in the list (0) and the offset in the text, which grows by it. */
static void view(uint8_t *at, const char *name, char *text, size_t *length) {
    size_t n = strlen(name);
    word(at, (uint32_t)n);
    if (n <= 12) {
        memcpy(at + 4, name, n);
    } else {
        memcpy(at + 4, name, 4);
        word(at + 12, (uint32_t)*length);
        memcpy(text + *length, name, n);
        *length += n;
    }
}

/* Pushes three rows, NULL and 0 for null; their long names are registered for the push and then let go. */
static void push(const uint64_t raids[3], const char *const names[3]) {
    uint8_t records[2 * PW_RECORD_BYTES], body[BODY] = {0};
    char text[256];
    size_t length = 0;
    for (int i = 0; i < 3; i++) {
        word(body + RAIDS + 8 * i, (uint32_t)raids[i]);
        word(body + RAIDS + 8 * i + 4, (uint32_t)(raids[i] >> 32));
        view(body + VIEWS + 16 * i, names[i] ? names[i] : "", text, &length);
        body[RAIDS_VALID] |= (uint8_t)((raids[i] != 0) << i);
        body[VIEWS_VALID] |= (uint8_t)((names[i] != NULL) << i);
    }
    uint64_t registered = pw_register_buffer(MEMORY, (const uint8_t *)text, length, (uint32_t)length);
    done(PW_REFUSAL(registered), "register");
    word(body + LIST, PW_VALUE(registered));
    record(records, PW_UINT64, RAIDS, RAIDS_VALID, 0, 0);
    record(records + PW_RECORD_BYTES, PW_UTF8_VIEW, VIEWS, VIEWS_VALID, LIST, 1);
    done(pw_push_batch(MEMORY, records, sizeof records, body, sizeof body, 3), "push");
    done(pw_let_go(MEMORY, PW_VALUE(registered)), "let go");
}

/* A cell of the front batch, `-` for null. */
static void show(uint32_t column, uint32_t row) {
    uint8_t answer[PW_ROW_BYTES];
    done(pw_read_row(MEMORY, column, row, answer, sizeof answer), "read a row");
    uint64_t start = word_at(answer + 4) | (uint64_t)word_at(answer + 8) << 32;
    uint32_t offset = word_at(answer + 12), length = word_at(answer + 16);
    uint8_t buffer[256];
    switch (word_at(answer)) {
    case 0:
        printf(" -");
        return;
    case 1:
        if (column == 0) printf(" %u", word_at(slots + start));
        else printf(" %.*s", (int)length, (const char *)slots + start);
        return;
    default: /* in a buffer, here of at most 256 bytes */
        pw_read_buffer(MEMORY, (uint32_t)start, buffer, sizeof buffer);
        printf(" %.*s", (int)length, (const char *)buffer + offset);
    }
}

/* Shows and drops the batches that are complete; their rows are read until one is not there (13). */
static void take(void) {
    while (pw_has_completed_batch(state, sizeof state)) {
        uint8_t answer[PW_ROW_BYTES];
        uint32_t rows = 0;
        while (pw_read_row(MEMORY, 0, rows, answer, sizeof answer) == 0) rows++;
        printf("batch of %u\n", rows);
        for (uint32_t row = 0; row < rows; row++) {
            printf(" ");
            show(0, row);
            show(1, row);
            printf("\n");
        }
        done(PW_REFUSAL(pw_next_completed_batch(MEMORY)), "drop");
    }
}

int main(void) {
    uint8_t kinds[8];
    word(kinds, PW_UINT64);
    word(kinds + 4, PW_UTF8_VIEW);
    done(pw_new(MEMORY, kinds, sizeof kinds, 4, ROWS, QUEUE, LISTS, NUMBERS), "set-up");
    push((uint64_t[]){1, 2, 3}, (const char *[]){"Asha", NULL, "Chitralekha Rao"});
    push((uint64_t[]){4, 0, 6}, (const char *[]){"Gurpreet Kaur Bhullar", "Devika", NULL});
    take();
    push((uint64_t[]){7, 8, 9}, (const char *[]){"Harini Subramanian", "Lata", "Oorvi Deshpande"});
    done(pw_finish_buffered_batch(MEMORY), "finish");
    take();
    return 0;
}
