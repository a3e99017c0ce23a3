/* The C interface of Seremonek: the byte formats of a database pager, proved.
 *
 * Every function that can refuse returns a uint32_t: 0 where the call was accepted, else the number of the refusal (the list below). Answers go
 * to `answer`, an array of the length that its declaration shows, in the order that its comment gives; a signed number there is its 64-bit pattern.
 * A refused call leaves `answer`, and every other byte that it was lent, as it was. An accepted call writes the bytes of its answer from the start
 * of an output and leaves the rest of the output as it was.
 *
 * A slice is a pointer and its length in bytes. The pointer is valid for that length, and is not null even where the length is 0. No slice that a
 * call may write overlaps another slice of the same call, or `answer`.
 *
 * Refusals:
 *    1 varint past the end                      15 bad value list
 *    2 eleventh byte wanted                     16 output shorter than the answer
 *    3 entry past the end                       17 nothing to chain
 *    4 no kind byte                             18 too few page numbers
 *    5 wrong kind                               19 unusable number
 *    6 entry cut short                          20 page number at least P
 *    7 value cut short                          21 type not T
 *    8 not UTF-8                                22 payload above 4,089
 *    9 unknown tag                              23 chain never ends
 *   10 bytes left over                          24 chain length differs
 *   11 page not well-formed                     25 a payload, a store or a list of a length that no call takes
 *   12 slot or column at or above count         26 not one whole entry of that rowid
 *   13 rowid or divider present                 27 `Value::Null` inside a value
 *   14 does not fit
 */
#ifndef SEREMONEK_H
#define SEREMONEK_H

#include <stddef.h>
#include <stdint.h>

#ifdef __cplusplus
extern "C" {
#endif

/* Varints: LEB128, signed numbers by ZigZag. */

/* The number at `pos`, which may be any number. Answer: value, bytes taken. Refusals 1, 2. */
uint32_t smk_read_u64(const uint8_t *buf, size_t buf_len, size_t pos, uint64_t answer[2]);
uint32_t smk_read_i64(const uint8_t *buf, size_t buf_len, size_t pos, uint64_t answer[2]);

/* Writes `value` in the fewest bytes. Answer: bytes written, 1 to 10. Refusal 16. */
uint32_t smk_write_u64(uint64_t value, uint8_t *out, size_t out_len, uint64_t answer[1]);
uint32_t smk_write_i64(int64_t value, uint8_t *out, size_t out_len, uint64_t answer[1]);

/* How many bytes the write takes: 1 to 10. */
uint64_t smk_u64_len(uint64_t value);
uint64_t smk_i64_len(int64_t value);

/* 2v for v >= 0, -2v - 1 for v < 0; and back. */
uint64_t smk_zigzag_encode(int64_t value);
int64_t smk_zigzag_decode(uint64_t value);

/* Text: well-formed UTF-8, by Table 3-7 of the Unicode Standard. */

/* Whether all of `bytes` is text; no bytes are. Refusal 8. */
uint32_t smk_utf8_check(const uint8_t *bytes, size_t bytes_len);

/* Entries: a body's length and the body, which starts with a kind byte: 1 local (a row), 2 overflow, 3 interior. */

/* Of the entry at `pos`, of whatever kind and wherever its body ends: its kind; its rowid; its bytes, the length's own among them. Refusals 1, 2, and 4; the last
 * one refuses 3 in place of 4. */
uint32_t smk_peek_kind(const uint8_t *buf, size_t buf_len, size_t pos, uint64_t answer[1]);
uint32_t smk_peek_rowid(const uint8_t *buf, size_t buf_len, size_t pos, uint64_t answer[1]);
uint32_t smk_encoded_size_at(const uint8_t *buf, size_t buf_len, size_t pos, uint64_t answer[1]);

/* Reads the local entry at `pos`, all of it. Answer: rowid, columns, bytes. Refusals 1 to 10. */
uint32_t smk_cell_decode(const uint8_t *buf, size_t buf_len, size_t pos, uint64_t answer[3]);

/* A value of the local entry at `pos`, by its column, from 0 on. Answer: kind, word, place. Refusals 1 to 10, then 12.
 * The kinds with their words: 0 Integer (its pattern), 1 Real (its bits), 2 Text (its bytes), 3 Bool (0 or 1), 4 Vector (its dimension), 255 null (0). The place
 * counts from the start of `buf`: there a text's bytes stand, or a vector's, four for each dimension. It is 0 for the other kinds. */
uint32_t smk_cell_value(const uint8_t *buf, size_t buf_len, size_t pos, uint64_t column, uint64_t answer[3]);

/* Writes the local entry of a value list: kinds and words as above, a word as eight bytes, lowest first; 5 is the kind of a null inside a value. The bytes of texts
 * and vectors stand in `data`, one behind the other. Answer: bytes. Refusals 25, 15, 27, 8; then 16, where there is an output. */
uint32_t smk_cell_encode(int64_t rowid, const uint8_t *kinds, size_t kinds_len, const uint8_t *words, size_t words_len, const uint8_t *data, size_t data_len,
                         uint8_t *out, size_t out_len, uint64_t answer[1]);
uint32_t smk_cell_encoded_len(int64_t rowid, const uint8_t *kinds, size_t kinds_len, const uint8_t *words, size_t words_len, const uint8_t *data,
                              size_t data_len, uint64_t answer[1]);

/* Overflow references and paged entries. */

/* The overflow reference at `pos`. Answer: rowid, total, first page, bytes taken. Refusals 1, 2, 3, 5, 6, 10. */
uint32_t smk_overflow_decode(const uint8_t *buf, size_t buf_len, size_t pos, uint64_t answer[4]);

/* Writes an overflow reference. Answer: bytes written, 8 to 26. Refusal 16. */
uint32_t smk_overflow_encode(int64_t rowid, uint64_t total, uint32_t first, uint8_t *out, size_t out_len, uint64_t answer[1]);

/* The local entry or the overflow reference at `pos`, by its kind. Answer: kind (1 local, 2 overflow), rowid, columns or total, 0 or first page, bytes
 * taken. Refusals 1 to 10. */
uint32_t smk_entry_decode(const uint8_t *buf, size_t buf_len, size_t pos, uint64_t answer[5]);

/* Interior cells. */

/* The interior cell at `pos`. Answer: divider, child page, bytes taken. Refusals 1, 2, 3, 5, 6, 10. */
uint32_t smk_interior_cell_decode(const uint8_t *buf, size_t buf_len, size_t pos, uint64_t answer[3]);

/* Writes an interior cell. Answer: bytes written, 7 to 16. Refusal 16. */
uint32_t smk_interior_cell_encode(int64_t divider, uint32_t child, uint8_t *out, size_t out_len, uint64_t answer[1]);

#ifdef __cplusplus
}
#endif

#endif
