/* morph_codes.h: Morph's erasure codes for C.
 *
 * A stripe is k chunks of data, 1 to 64, of one length. Its parity with the point p, 1 to 255, is the sum over t of
 * p^t * chunk t, byte by byte, over the field GF(2^8) with the polynomial 0x11D. A code of 1 to 4 points has a parity
 * for each. `morph_codes_check` says whether each loss of as many chunks and parities as there are points can be made
 * good. Parities of narrow stripes merge into those of a wide one, and no chunk of data takes part.
 *
 * Each call tests what it is handed before it writes. It answers MORPH_CODES_DONE, or a status that says what is
 * refused, and then nothing was written. No call keeps a pointer. Only `morph_codes_check`, `morph_codes_decode`,
 * `morph_codes_plan` and `morph_codes_decode_row` take memory, by malloc, and give it back before they return.
 * Calls may run in several threads at once.
 *
 * What the caller owes: each pointer has as many bytes or entries as the length beside it, and isn't NULL, also where
 * that length is 0. What is written overlaps nothing else that the call is handed. Nobody writes to it meanwhile.
 */
#ifndef MORPH_CODES_H
#define MORPH_CODES_H

#include <stddef.h>
#include <stdint.h>

#ifdef __cplusplus
extern "C" {
#endif

enum {
    MORPH_CODES_DONE = 0,        /* it is done */
    MORPH_CODES_WIDTH = 1,       /* more than 64 chunks, or a width that is 0 or above 64 */
    MORPH_CODES_COUNT = 2,       /* lists that don't fit together, as rooms and points; each call says which */
    MORPH_CODES_LENGTH = 3,      /* a piece has not the columns that are asked for */
    MORPH_CODES_POINTS = 4,      /* no point or more than four, a point that is 0, or two equal */
    MORPH_CODES_UNDECODABLE = 5, /* a loss of as many places as there are points can't be made good */
    MORPH_CODES_MEMORY = 6       /* memory ran out */
};

/* A chunk that is read: where its bytes are, and how many. It has the layout of a struct iovec. */
struct morph_codes_piece {
    const uint8_t *bytes;
    size_t length;
};

/* Room for a chunk that is written. The caller owns it. */
struct morph_codes_room {
    uint8_t *bytes;
    size_t length;
};

/* Whether stripes of `width` chunks with a parity for each of the points bear each loss of as many chunks and
 * parities as there are points. Some milliseconds at the most.
 * DONE: they do. Else WIDTH, POINTS, UNDECODABLE or MEMORY. */
uint32_t morph_codes_check(const uint8_t *points, size_t point_count, uint32_t width);

/* Overwrites each room with the parity of its point. `pieces` are the chunks of a stripe, in order; a short last
 * stripe has fewer, and what is missing counts as zero bytes. Of each piece the first `size` bytes are read.
 * WIDTH: more than 64 pieces. COUNT: not a room for each point, or a room has not `size` bytes.
 * LENGTH: a piece has less than `size` bytes. */
uint32_t morph_codes_encode(const uint8_t *points, size_t point_count, const struct morph_codes_piece *pieces,
                            size_t piece_count, size_t size, struct morph_codes_room *rooms, size_t room_count);

/* Overwrites the `length` bytes at `out` with those from `start` on of the parity of this point.
 * WIDTH: more than 64 pieces. LENGTH: a piece has less than start + length bytes. */
uint32_t morph_codes_encode_block(uint8_t point, const struct morph_codes_piece *pieces, size_t piece_count,
                                  size_t start, uint8_t *out, size_t length);

/* Overwrites the `length` bytes at `out` with those from `start` on of a wide stripe's parity of this point.
 * `parities` are those of this point of the stripes of `width` chunks that it is made of, in order.
 * WIDTH: more than 64 parities, or a width above 64. LENGTH: a parity has less than start + length bytes. */
uint32_t morph_codes_merge(uint8_t point, uint32_t width, const struct morph_codes_piece *parities,
                           size_t parity_count, size_t start, uint8_t *out, size_t length);

/* Overwrites the `length` bytes at `out` with those from `start` on of the sum of the pieces, each times its
 * coefficient of the row.
 * COUNT: not a coefficient for each piece. LENGTH: a piece has less than start + length bytes. */
uint32_t morph_codes_combine(const uint8_t *row, size_t row_length, const struct morph_codes_piece *pieces,
                             size_t piece_count, size_t start, uint8_t *out, size_t length);

/* Overwrites each room with a lost piece of a stripe of `piece_count` pieces. `lost` are the numbers of the lost
 * pieces, `had` those of as many parities that are had, each from 0 and ascending. `left` is what is left of the
 * stripe: these parities, in order, and then the pieces that aren't lost, in order. Of each the first `size` bytes are
 * read. There is a room of `size` bytes for each lost piece, in order.
 * WIDTH: no piece, or more than 64. POINTS: no point, or more than four.
 * COUNT: not as many parities as lost pieces, a number that is too large or out of order, not `piece_count` pieces and
 * parities left, not a room for each lost piece, or a room has not `size` bytes. LENGTH: one of `left` has less than
 * `size` bytes. UNDECODABLE: these parities don't tell these pieces. Else MEMORY. */
uint32_t morph_codes_decode(const uint8_t *points, size_t point_count, uint32_t piece_count, const uint32_t *lost,
                            size_t lost_count, const uint32_t *had, size_t had_count,
                            const struct morph_codes_piece *left, size_t left_count, size_t size,
                            struct morph_codes_room *rooms, size_t room_count);

/* Overwrites `rows` with a plan that may be kept: the rows of coefficients by which the lost pieces are had from what
 * is left, one behind the other, `piece_count` bytes each. `morph_codes_apply` with these rows and `left`, as
 * `morph_codes_decode` has it, gives the lost pieces of every stripe that has lost the same and has the same parities.
 * The numbers are as for `morph_codes_decode`.
 * WIDTH: no piece, or more than 64. POINTS: no point, or more than four.
 * COUNT: not as many parities as lost pieces, a number that is too large or out of order, or `rows` has not
 * `lost_count` * `piece_count` bytes. UNDECODABLE: these parities don't tell these pieces. Else MEMORY. */
uint32_t morph_codes_plan(const uint8_t *points, size_t point_count, uint32_t piece_count, const uint32_t *lost,
                          size_t lost_count, const uint32_t *had, size_t had_count, uint8_t *rows, size_t rows_length);

/* Overwrites each room with the sum of the pieces, each times its coefficient of the room's row. The rows stand one
 * behind the other, with a coefficient for each piece. Of each piece the first `size` bytes are read.
 * WIDTH: more than 64 pieces. COUNT: not a row for each room, or a room has not `size` bytes.
 * LENGTH: a piece has less than `size` bytes. */
uint32_t morph_codes_apply(const uint8_t *rows, size_t rows_length, const struct morph_codes_piece *pieces,
                           size_t piece_count, size_t size, struct morph_codes_room *rooms, size_t room_count);

/* Overwrites `row` with the coefficients by which the e-th lost piece of a stripe of `piece_count` pieces is had from
 * what is left: `morph_codes_combine` with this row, over the parities that are had, in order, and then the pieces that
 * aren't lost, in order, gives its bytes. The row serves every stripe that has lost the same pieces and has the same
 * parities, so it may be kept. `lost` are the numbers of the lost pieces, `had` those of as many parities, each from 0
 * and ascending.
 * WIDTH: no piece, or more than 64. POINTS: no point, or more than four.
 * COUNT: not as many parities as lost pieces, a number that is too large or out of order, no e-th lost piece, or a row
 * that has not `piece_count` bytes. UNDECODABLE: these parities don't tell these pieces. Else MEMORY. */
uint32_t morph_codes_decode_row(const uint8_t *points, size_t point_count, uint32_t piece_count, const uint32_t *lost,
                                size_t lost_count, const uint32_t *had, size_t had_count, uint32_t e, uint8_t *row,
                                size_t row_length);

#ifdef __cplusplus
}
#endif

#endif
