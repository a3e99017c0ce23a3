/* Calls every function of include/seremonek.h as a C program would, on worked numbers of document 01. `c_header.rs` compiles, links and runs it, and fails
 * where the header declares a function that is not called here. */
#include "seremonek.h"

#include <stdio.h>
#include <string.h>

static int failed = 0;

static void expect(int holds, const char *what) {
    if (!holds) {
        printf("FAILED: %s\n", what);
        failed = 1;
    }
}

#define EXPECT(condition) expect((condition), #condition)

static void varint(void) {
    const uint8_t three_hundred[2] = {0xAC, 0x02};
    const uint8_t goes_on[1] = {0x80};
    uint64_t answer[3] = {7, 7, 7};
    uint8_t out[12];

    EXPECT(smk_read_u64(three_hundred, 2, 0, answer) == 0);
    EXPECT(answer[0] == 300 && answer[1] == 2 && answer[2] == 7);
    EXPECT(smk_read_u64(goes_on, 1, 0, answer) == 1);
    EXPECT(answer[0] == 300 && answer[1] == 2);
    EXPECT(smk_read_i64(three_hundred, 2, 1, answer) == 0);
    EXPECT(answer[0] == 1 && answer[1] == 1 && answer[2] == 7);
    EXPECT(smk_read_i64(three_hundred, 2, SIZE_MAX, answer) == 1);

    memset(out, 0xEE, sizeof out);
    EXPECT(smk_write_u64(UINT64_MAX, out, 10, answer) == 0);
    EXPECT(answer[0] == 10 && answer[1] == 1 && out[8] == 0xFF && out[9] == 0x01 && out[10] == 0xEE);
    EXPECT(smk_write_i64(-64, out, 10, answer) == 0);
    EXPECT(answer[0] == 1 && out[0] == 0x7F && out[1] == 0xFF);
    EXPECT(smk_write_i64(64, out, 1, answer) == 16);
    EXPECT(answer[0] == 1 && out[0] == 0x7F);

    EXPECT(smk_u64_len(127) == 1 && smk_u64_len(128) == 2);
    EXPECT(smk_i64_len(-64) == 1 && smk_i64_len(64) == 2);
    EXPECT(smk_zigzag_encode(INT64_MIN) == UINT64_MAX && smk_zigzag_encode(-1) == 1);
    EXPECT(smk_zigzag_decode(UINT64_MAX) == INT64_MIN && smk_zigzag_decode(128) == 64);
}

static void utf8(void) {
    const uint8_t last[4] = {0xF4, 0x8F, 0xBF, 0xBF};
    const uint8_t past_the_last[4] = {0xF4, 0x90, 0x80, 0x80};

    EXPECT(smk_utf8_check(last, 4) == 0);
    EXPECT(smk_utf8_check(last, 3) == 8);
    EXPECT(smk_utf8_check(last, 0) == 0);
    EXPECT(smk_utf8_check(past_the_last, 4) == 8);
}

static void cell(void) {
    /* rowid 1, Integer 5, null, Text A, Bool true */
    const uint8_t entry[12] = {0x0B, 0x01, 0x02, 0x04, 0x02, 0x00, 0x0A, 0x02, 0x01, 0x41, 0x03, 0x01};
    const uint8_t kinds[4] = {0, 255, 2, 3};
    const uint8_t words[32] = {5, 0, 0, 0, 0, 0, 0, 0, 0, 0, 0, 0, 0, 0, 0, 0, 1, 0, 0, 0, 0, 0, 0, 0, 1};
    const uint8_t text[1] = {0x41};
    uint64_t answer[4] = {7, 7, 7, 7};
    uint8_t out[13];

    EXPECT(smk_peek_kind(entry, 12, 0, answer) == 0 && answer[0] == 1 && answer[1] == 7);
    EXPECT(smk_peek_rowid(entry, 12, 0, answer) == 0 && answer[0] == 1 && answer[1] == 7);
    EXPECT(smk_encoded_size_at(entry, 12, 0, answer) == 0 && answer[0] == 12 && answer[1] == 7);
    EXPECT(smk_peek_kind(entry, 1, 0, answer) == 4 && answer[0] == 12);

    EXPECT(smk_cell_decode(entry, 12, 0, answer) == 0);
    EXPECT(answer[0] == 1 && answer[1] == 4 && answer[2] == 12 && answer[3] == 7);
    EXPECT(smk_cell_decode(entry, 11, 0, answer) == 3 && answer[2] == 12);

    EXPECT(smk_cell_value(entry, 12, 0, 0, answer) == 0 && answer[0] == 0 && answer[1] == 5 && answer[2] == 0);
    EXPECT(smk_cell_value(entry, 12, 0, 1, answer) == 0 && answer[0] == 255 && answer[1] == 0 && answer[2] == 0);
    EXPECT(smk_cell_value(entry, 12, 0, 2, answer) == 0 && answer[0] == 2 && answer[1] == 1 && answer[2] == 9);
    EXPECT(smk_cell_value(entry, 12, 0, 3, answer) == 0 && answer[0] == 3 && answer[1] == 1 && answer[2] == 0);
    EXPECT(smk_cell_value(entry, 12, 0, 4, answer) == 12 && answer[0] == 3 && answer[3] == 7);

    memset(out, 0xEE, sizeof out);
    EXPECT(smk_cell_encode(1, kinds, 4, words, 32, text, 1, out, 11, answer) == 16 && out[0] == 0xEE && answer[0] == 3);
    EXPECT(smk_cell_encode(1, kinds, 4, words, 32, text, 1, out, 13, answer) == 0 && answer[0] == 12 && answer[1] == 1);
    EXPECT(memcmp(out, entry, 12) == 0 && out[12] == 0xEE);
    EXPECT(smk_cell_encoded_len(1, kinds, 4, words, 32, text, 1, answer) == 0 && answer[0] == 12 && answer[1] == 1);
    EXPECT(smk_cell_encoded_len(1, kinds, 4, words, 32, text, 0, answer) == 15 && answer[0] == 12);
    EXPECT(smk_cell_encoded_len(1, kinds, 4, words, 31, text, 1, answer) == 25);
}

static void references(void) {
    /* Rowid 7, total 5,000, page 9; then a local entry with rowid 0 and no columns. */
    const uint8_t entries[13] = {0x08, 0x02, 0x0E, 0x88, 0x27, 0x09, 0x00, 0x00, 0x00, 0x03, 0x01, 0x00, 0x00};
    uint64_t answer[6] = {7, 7, 7, 7, 7, 7};
    uint8_t out[27];

    EXPECT(smk_overflow_decode(entries, 13, 0, answer) == 0);
    EXPECT(answer[0] == 7 && answer[1] == 5000 && answer[2] == 9 && answer[3] == 9 && answer[4] == 7);
    EXPECT(smk_overflow_decode(entries, 13, 9, answer) == 5);
    EXPECT(smk_overflow_decode(entries, 8, 0, answer) == 3);
    EXPECT(answer[0] == 7 && answer[1] == 5000 && answer[2] == 9 && answer[3] == 9);

    EXPECT(smk_entry_decode(entries, 13, 0, answer) == 0);
    EXPECT(answer[0] == 2 && answer[1] == 7 && answer[2] == 5000 && answer[3] == 9 && answer[4] == 9 && answer[5] == 7);
    EXPECT(smk_entry_decode(entries, 13, 9, answer) == 0);
    EXPECT(answer[0] == 1 && answer[1] == 0 && answer[2] == 0 && answer[3] == 0 && answer[4] == 4 && answer[5] == 7);
    EXPECT(smk_entry_decode(entries, 13, 12, answer) == 4);
    EXPECT(answer[0] == 1 && answer[4] == 4);

    memset(out, 0xEE, sizeof out);
    EXPECT(smk_overflow_encode(7, 5000, 9, out, 8, answer) == 16);
    EXPECT(out[0] == 0xEE && out[7] == 0xEE && answer[0] == 1);
    EXPECT(smk_overflow_encode(7, 5000, 9, out, 27, answer) == 0);
    EXPECT(answer[0] == 9 && memcmp(out, entries, 9) == 0 && out[9] == 0xEE);
    EXPECT(smk_overflow_encode(INT64_MIN, UINT64_MAX, UINT32_MAX, out, 27, answer) == 0);
    EXPECT(answer[0] == 26 && out[0] == 25 && out[25] == 0xFF && out[26] == 0xEE);
}

static void interior_cells(void) {
    /* Divider 10, child 3. */
    const uint8_t cell[7] = {0x06, 0x03, 0x14, 0x03, 0x00, 0x00, 0x00};
    uint64_t answer[4] = {7, 7, 7, 7};
    uint8_t out[17];

    EXPECT(smk_interior_cell_decode(cell, 7, 0, answer) == 0);
    EXPECT(answer[0] == 10 && answer[1] == 3 && answer[2] == 7 && answer[3] == 7);
    EXPECT(smk_interior_cell_decode(cell, 7, 1, answer) == 5);
    EXPECT(answer[0] == 10 && answer[1] == 3 && answer[2] == 7);

    memset(out, 0xEE, sizeof out);
    EXPECT(smk_interior_cell_encode(10, 3, out, 6, answer) == 16);
    EXPECT(out[0] == 0xEE && out[5] == 0xEE && answer[0] == 10);
    EXPECT(smk_interior_cell_encode(10, 3, out, 17, answer) == 0);
    EXPECT(answer[0] == 7 && memcmp(out, cell, 7) == 0 && out[7] == 0xEE);
    EXPECT(smk_interior_cell_encode(INT64_MIN, UINT32_MAX, out, 17, answer) == 0);
    EXPECT(answer[0] == 16 && out[0] == 15 && out[15] == 0xFF && out[16] == 0xEE);
}

int main(void) {
    varint();
    utf8();
    cell();
    references();
    interior_cells();
    return failed;
}
