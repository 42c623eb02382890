/* Each call goes to the build for the processor that runs: with AVX2 where it has x86-64-v3, else with SSE alone.
 * The two builds are of one proved crate. */
#include "morph_codes.h"

#define TWO_BUILDS(name, parameters, arguments)                                                                        \
    uint32_t morph_codes_v2_##name parameters;                                                                         \
    uint32_t morph_codes_v3_##name parameters;                                                                         \
    uint32_t morph_codes_##name parameters                                                                             \
    {                                                                                                                  \
        return __builtin_cpu_supports("x86-64-v3") ? morph_codes_v3_##name arguments                                   \
                                                   : morph_codes_v2_##name arguments;                                  \
    }

TWO_BUILDS(check, (const uint8_t *points, size_t point_count, uint32_t width), (points, point_count, width))

TWO_BUILDS(encode,
           (const uint8_t *points, size_t point_count, const struct morph_codes_piece *pieces, size_t piece_count,
            size_t size, struct morph_codes_room *rooms, size_t room_count),
           (points, point_count, pieces, piece_count, size, rooms, room_count))

TWO_BUILDS(encode_block,
           (uint8_t point, const struct morph_codes_piece *pieces, size_t piece_count, size_t start, uint8_t *out,
            size_t length),
           (point, pieces, piece_count, start, out, length))

TWO_BUILDS(merge,
           (uint8_t point, uint32_t width, const struct morph_codes_piece *parities, size_t parity_count,
            size_t start, uint8_t *out, size_t length),
           (point, width, parities, parity_count, start, out, length))

TWO_BUILDS(combine,
           (const uint8_t *row, size_t row_length, const struct morph_codes_piece *pieces, size_t piece_count,
            size_t start, uint8_t *out, size_t length),
           (row, row_length, pieces, piece_count, start, out, length))

TWO_BUILDS(decode_row,
           (const uint8_t *points, size_t point_count, uint32_t piece_count, const uint32_t *lost, size_t lost_count,
            const uint32_t *had, size_t had_count, uint32_t e, uint8_t *row, size_t row_length),
           (points, point_count, piece_count, lost, lost_count, had, had_count, e, row, row_length))

TWO_BUILDS(decode,
           (const uint8_t *points, size_t point_count, uint32_t piece_count, const uint32_t *lost, size_t lost_count,
            const uint32_t *had, size_t had_count, const struct morph_codes_piece *left, size_t left_count, size_t size,
            struct morph_codes_room *rooms, size_t room_count),
           (points, point_count, piece_count, lost, lost_count, had, had_count, left, left_count, size, rooms,
            room_count))

TWO_BUILDS(plan,
           (const uint8_t *points, size_t point_count, uint32_t piece_count, const uint32_t *lost, size_t lost_count,
            const uint32_t *had, size_t had_count, uint8_t *rows, size_t rows_length),
           (points, point_count, piece_count, lost, lost_count, had, had_count, rows, rows_length))

TWO_BUILDS(apply,
           (const uint8_t *rows, size_t rows_length, const struct morph_codes_piece *pieces, size_t piece_count,
            size_t size, struct morph_codes_room *rooms, size_t room_count),
           (rows, rows_length, pieces, piece_count, size, rooms, room_count))
