/* Compares each call of the library with plain sums of its own, at lengths around lanes and blocks; then what is
 * refused, with nothing written, and malloc refused at each call in turn. Prints each wrong row, and counts. */
#include "morph_codes.h"
#include <stdio.h>
#include <stdlib.h>
#include <string.h>

#define K 6
#define WIDE 12
#define P 3

typedef struct morph_codes_piece piece;
typedef struct morph_codes_room room;

static const size_t sizes[] = {0, 1, 31, 32, 33, 4095, 4096, 4097, 16385, 65536, 1048576};
static const uint8_t points[P] = {1, 2, 4};
static int passed, failed;

/* How many calls of malloc and realloc are still granted; below 0 all are. */
static long granted = -1;
void *__real_malloc(size_t size);
void *__real_realloc(void *old, size_t size);
static int refuses(void) { return granted == 0 || (granted > 0 && granted-- == 0); }
void *__wrap_malloc(size_t size) { return refuses() ? NULL : __real_malloc(size); }
void *__wrap_realloc(void *old, size_t size) { return refuses() ? NULL : __real_realloc(old, size); }

static void expect(int holds, const char *what, size_t size)
{
    if (holds) {
        passed++;
    } else {
        failed++;
        printf("codes: wrong: %s, %zu\n", what, size);
    }
}

static uint8_t times(uint8_t a, uint8_t b)
{
    unsigned product = 0, factor = a;
    for (; b; b >>= 1, factor = factor << 1 ^ (factor & 0x80 ? 0x11d : 0))
        if (b & 1)
            product ^= factor;
    return (uint8_t)product;
}

static uint8_t power(uint8_t point, unsigned exponent)
{
    uint8_t result = 1;
    while (exponent--)
        result = times(result, point);
    return result;
}

static uint8_t drawn(void)
{
    static uint64_t state = 88172645463325252u;
    state ^= state << 13;
    state ^= state >> 7;
    state ^= state << 17;
    return (uint8_t)(state >> 24);
}

/* `size` bytes of their own, so that the sanitizer sees a step beyond them. */
static uint8_t *bytes(size_t size, int fill)
{
    uint8_t *made = malloc(size ? size : 1);
    for (size_t x = 0; x < size; x++)
        made[x] = fill < 0 ? drawn() : (uint8_t)fill;
    return made;
}

/* The sum of pieces by a row, byte by byte. */
static uint8_t *plain(const uint8_t *row, const piece *pieces, size_t count, size_t size)
{
    uint8_t *sum = bytes(size, 0);
    for (size_t t = 0; t < count; t++) {
        uint8_t table[256];
        for (unsigned b = 0; b < 256; b++)
            table[b] = times(row[t], (uint8_t)b);
        for (size_t x = 0; x < size; x++)
            sum[x] ^= table[pieces[t].bytes[x]];
    }
    return sum;
}

static uint8_t *parity(uint8_t point, const piece *pieces, size_t count, size_t size)
{
    uint8_t row[64];
    for (size_t t = 0; t < count; t++)
        row[t] = power(point, (unsigned)t);
    return plain(row, pieces, count, size);
}

static int same(const uint8_t *a, const uint8_t *b, size_t size) { return memcmp(a, b, size) == 0; }

/* The blocks of at most 4,096 columns at both ends, and one across the middle. */
static void compare_blocks(const piece *pieces, const uint8_t *wanted, const uint8_t *row, size_t size)
{
    size_t count = size < 4096 ? size : 4096, starts[3] = {0, (size - count) / 2, size - count};
    for (int i = 0; i < 3; i++) {
        uint8_t *out = bytes(count, 0x77);
        expect(morph_codes_encode_block(points[1], pieces, K, starts[i], out, count) == MORPH_CODES_DONE &&
                   same(out, wanted + starts[i], count), "a block of a parity", size);
        expect(morph_codes_combine(row, K, pieces, K, starts[i], out, count) == MORPH_CODES_DONE &&
                   same(out, wanted + starts[i], count), "a block of a sum by a row", size);
        free(out);
    }
}

/* The numbers of the ones of a set, ascending. */
static size_t numbers(unsigned set, uint32_t *made)
{
    size_t count = 0;
    for (uint32_t t = 0; set >> t; t++)
        if (set >> t & 1)
            made[count++] = t;
    return count;
}

/* What is left of a stripe that has lost these pieces and has these parities. */
static void leave(const piece *pieces, uint8_t *const *parities, unsigned gone, const uint32_t *had, size_t erased,
                  size_t size, piece *left)
{
    size_t count = 0;
    for (size_t j = 0; j < erased; j++)
        left[count++] = (piece){parities[had[j]], size};
    for (int t = 0; t < K; t++)
        if (!(gone >> t & 1))
            left[count++] = pieces[t];
}

/* The lost pieces, in one call, and by rows that are kept. */
static void decode_all(const piece *pieces, const piece *left, const uint32_t *lost, const uint32_t *had,
                       size_t erased, size_t size)
{
    uint8_t rows[P * K];
    for (int kept = 0; kept < 2; kept++) {
        room rooms[P];
        for (size_t e = 0; e < erased; e++)
            rooms[e] = (room){bytes(size, 0x77), size};
        if (kept)
            expect(morph_codes_plan(points, P, K, lost, erased, had, erased, rows, erased * K) == MORPH_CODES_DONE &&
                       morph_codes_apply(rows, erased * K, left, K, size, rooms, erased) == MORPH_CODES_DONE,
                   "decoding by rows", size);
        else
            expect(morph_codes_decode(points, P, K, lost, erased, had, erased, left, K, size, rooms, erased) ==
                       MORPH_CODES_DONE, "decoding in one call", size);
        for (size_t e = 0; e < erased; e++) {
            expect(same(rooms[e].bytes, pieces[lost[e]].bytes, size), kept ? "a piece by rows" : "a piece", size);
            free(rooms[e].bytes);
        }
    }
}

/* Each set of lost pieces, by each set of as many parities; of long chunks three sets alone. */
static void decode(const piece *pieces, uint8_t *const *parities, size_t size)
{
    for (unsigned gone = 1; gone < 1u << K; gone++)
        for (unsigned kept = 1; kept < 1u << P; kept++) {
            uint32_t lost[K], had[P];
            size_t erased = numbers(gone, lost);
            if (numbers(kept, had) != erased || (size > 5000 && gone != 1 && gone != 0x12 && gone != 0x2a))
                continue;
            piece left[K];
            leave(pieces, parities, gone, had, erased, size, left);
            decode_all(pieces, left, lost, had, erased, size);
            for (uint32_t e = 0; e < erased; e++) {
                uint8_t row[K], *out = bytes(size, 0x77);
                expect(morph_codes_decode_row(points, P, K, lost, erased, had, erased, e, row, K) == MORPH_CODES_DONE &&
                           morph_codes_combine(row, K, left, K, 0, out, size) == MORPH_CODES_DONE &&
                           same(out, pieces[lost[e]].bytes, size), "a decoded piece", size);
                free(out);
            }
        }
}

static void compare(size_t size)
{
    piece pieces[WIDE];
    for (int t = 0; t < WIDE; t++)
        pieces[t] = (piece){bytes(size, -1), size};
    uint8_t *narrow[2][P];
    for (int b = 0; b < 2; b++) {
        room rooms[P];
        for (int p = 0; p < P; p++)
            rooms[p] = (room){narrow[b][p] = bytes(size, 0x77), size};
        expect(morph_codes_encode(points, P, pieces + K * b, K, size, rooms, P) == MORPH_CODES_DONE, "encode", size);
        for (int p = 0; p < P; p++) {
            uint8_t *wanted = parity(points[p], pieces + K * b, K, size);
            expect(same(narrow[b][p], wanted, size), "a parity", size);
            free(wanted);
        }
    }
    for (int p = 0; p < P; p++) {
        piece two[2] = {{narrow[0][p], size}, {narrow[1][p], size}};
        uint8_t *merged = bytes(size, 0x77), *wanted = parity(points[p], pieces, WIDE, size);
        expect(morph_codes_merge(points[p], K, two, 2, 0, merged, size) == MORPH_CODES_DONE &&
                   same(merged, wanted, size), "a merged parity", size);
        free(merged);
        free(wanted);
    }
    uint8_t row[K];
    for (int t = 0; t < K; t++)
        row[t] = power(points[1], (unsigned)t);
    compare_blocks(pieces, narrow[0][1], row, size);
    decode(pieces, narrow[0], size);
    for (int t = 0; t < WIDE; t++)
        free((void *)pieces[t].bytes);
    for (int b = 0; b < 2; b++)
        for (int p = 0; p < P; p++)
            free(narrow[b][p]);
}

/* Decodings in one call, and rows that are kept, which are refused. Piece 5 of `many` has seven bytes. */
static void refuse_decodings(piece *many, room *rooms, uint8_t *out)
{
    static const uint32_t rising[2] = {0, 1}, falling[2] = {1, 0}, far[2] = {0, 6};
    static const uint8_t twice[2] = {3, 3};
    expect(morph_codes_decode(points, 3, 0, rising, 2, rising, 2, many, 0, 8, rooms, 2) == MORPH_CODES_WIDTH,
           "no piece to decode", 0);
    expect(morph_codes_decode(points, 3, 65, rising, 2, rising, 2, many, 65, 8, rooms, 2) == MORPH_CODES_WIDTH,
           "65 pieces to decode", 65);
    expect(morph_codes_decode(points, 0, 5, rising, 2, rising, 2, many, 5, 8, rooms, 2) == MORPH_CODES_POINTS,
           "no point to decode", 0);
    expect(morph_codes_decode(points, 3, 5, falling, 2, rising, 2, many, 5, 8, rooms, 2) == MORPH_CODES_COUNT,
           "falling losses", 2);
    expect(morph_codes_decode(points, 3, 5, far, 2, rising, 2, many, 5, 8, rooms, 2) == MORPH_CODES_COUNT,
           "a loss too far", 6);
    expect(morph_codes_decode(points, 3, 5, rising, 2, rising, 1, many, 5, 8, rooms, 2) == MORPH_CODES_COUNT,
           "a parity too few", 1);
    expect(morph_codes_decode(points, 3, 5, rising, 2, rising, 2, many, 4, 8, rooms, 2) == MORPH_CODES_COUNT,
           "a piece too few", 4);
    expect(morph_codes_decode(points, 3, 5, rising, 2, rising, 2, many, 5, 8, rooms, 1) == MORPH_CODES_COUNT,
           "a room too few to decode", 1);
    expect(morph_codes_decode(points, 3, 5, rising, 2, rising, 2, many, 5, 7, rooms, 2) == MORPH_CODES_COUNT,
           "a room too large", 8);
    expect(morph_codes_decode(points, 3, 6, rising, 2, rising, 2, many, 6, 8, rooms, 2) == MORPH_CODES_LENGTH,
           "a piece too short to decode", 7);
    expect(morph_codes_decode(twice, 2, 5, rising, 2, rising, 2, many, 5, 8, rooms, 2) == MORPH_CODES_UNDECODABLE,
           "decoding by two equal points", 2);
    expect(morph_codes_plan(points, 3, 0, rising, 1, rising, 1, out, 0) == MORPH_CODES_WIDTH, "no piece of a plan", 0);
    expect(morph_codes_plan(points, 5, 4, rising, 2, rising, 2, out, 8) == MORPH_CODES_POINTS, "five points", 5);
    expect(morph_codes_plan(points, 3, 4, rising, 2, falling, 2, out, 8) == MORPH_CODES_COUNT, "falling parities", 2);
    expect(morph_codes_plan(points, 3, 3, rising, 2, rising, 2, out, 8) == MORPH_CODES_COUNT, "long rows", 8);
    expect(morph_codes_plan(twice, 2, 4, rising, 2, rising, 2, out, 8) == MORPH_CODES_UNDECODABLE,
           "a plan by two equal points", 2);
    expect(morph_codes_apply(points, 3, many, 65, 8, rooms, 2) == MORPH_CODES_WIDTH, "65 pieces by rows", 65);
    expect(morph_codes_apply(points, 3, many, 2, 8, rooms, 2) == MORPH_CODES_COUNT, "a coefficient too few by rows", 3);
    expect(morph_codes_apply(points, 2, many, 1, 7, rooms, 2) == MORPH_CODES_COUNT, "a room too large by rows", 8);
    expect(morph_codes_apply(points, 2, many + 5, 1, 8, rooms, 2) == MORPH_CODES_LENGTH, "a short piece by rows", 7);
}

/* What is refused, and that nothing is written then. */
static void refuse(void)
{
    static uint8_t data[8], out[8], kept[8];
    piece many[65];
    room rooms[2] = {{out, 8}, {kept, 8}};
    memset(out, 0x77, 8);
    memset(kept, 0x77, 8);
    for (int t = 0; t < 65; t++)
        many[t] = (piece){data, 8};
    expect(morph_codes_encode_block(2, many, 65, 0, out, 8) == MORPH_CODES_WIDTH, "65 pieces of a block", 65);
    expect(morph_codes_encode(points, 2, many, 65, 8, rooms, 2) == MORPH_CODES_WIDTH, "65 pieces", 65);
    expect(morph_codes_encode(points, 3, many, 6, 8, rooms, 2) == MORPH_CODES_COUNT, "a room too few", 2);
    rooms[1].length = 7;
    expect(morph_codes_encode(points, 2, many, 6, 8, rooms, 2) == MORPH_CODES_COUNT, "a room too small", 7);
    rooms[1].length = 8;
    many[5].length = 7;
    expect(morph_codes_encode(points, 2, many, 6, 8, rooms, 2) == MORPH_CODES_LENGTH, "a piece too short", 7);
    expect(morph_codes_encode_block(2, many, 6, 4, out, 4) == MORPH_CODES_LENGTH, "a block too far", 4);
    expect(morph_codes_encode_block(2, many, 6, SIZE_MAX, out, 8) == MORPH_CODES_LENGTH, "a start too far", 8);
    expect(morph_codes_merge(2, 65, many, 2, 0, out, 8) == MORPH_CODES_WIDTH, "a width of 65", 65);
    expect(morph_codes_merge(2, 6, many, 65, 0, out, 8) == MORPH_CODES_WIDTH, "65 parities", 65);
    expect(morph_codes_merge(2, 6, many, 6, 0, out, 8) == MORPH_CODES_LENGTH, "a parity too short", 7);
    expect(morph_codes_combine(data, 5, many, 6, 0, out, 8) == MORPH_CODES_COUNT, "a coefficient too few", 5);
    expect(morph_codes_combine(data, 6, many, 6, 0, out, 8) == MORPH_CODES_LENGTH, "a short piece of a row", 6);
    static const uint32_t falling[2] = {1, 0}, rising[2] = {0, 1}, far[2] = {0, 6};
    static const uint8_t twice[2] = {3, 3};
    expect(morph_codes_decode_row(points, 3, 0, rising, 1, rising, 1, 0, out, 0) == MORPH_CODES_WIDTH, "no piece", 0);
    expect(morph_codes_decode_row(points, 3, 65, rising, 1, rising, 1, 0, out, 8) == MORPH_CODES_WIDTH,
           "65 pieces of a row", 65);
    expect(morph_codes_decode_row(points, 0, 8, rising, 1, rising, 1, 0, out, 8) == MORPH_CODES_POINTS, "no point", 0);
    expect(morph_codes_decode_row(points, 3, 8, falling, 2, rising, 2, 0, out, 8) == MORPH_CODES_COUNT, "falling", 2);
    expect(morph_codes_decode_row(points, 3, 8, rising, 2, rising, 1, 0, out, 8) == MORPH_CODES_COUNT, "too few", 1);
    expect(morph_codes_decode_row(points, 3, 8, rising, 2, far, 2, 0, out, 8) == MORPH_CODES_COUNT, "no parity", 6);
    expect(morph_codes_decode_row(points, 3, 8, rising, 2, rising, 2, 2, out, 8) == MORPH_CODES_COUNT, "no third", 2);
    expect(morph_codes_decode_row(points, 3, 7, rising, 2, rising, 2, 0, out, 8) == MORPH_CODES_COUNT, "a long row", 7);
    expect(morph_codes_decode_row(twice, 2, 8, rising, 2, rising, 2, 0, out, 8) == MORPH_CODES_UNDECODABLE,
           "two equal points", 2);
    refuse_decodings(many, rooms, out);
    for (int x = 0; x < 8; x++)
        expect(out[x] == 0x77 && kept[x] == 0x77, "a refusal has written", (size_t)x);
}

static void check(void)
{
    static const uint8_t four[5] = {1, 2, 4, 8, 16}, twice[2] = {3, 3}, zero[2] = {1, 0};
    static const struct {
        const uint8_t *points;
        size_t count;
        uint32_t width, status;
    } rows[] = {
        {four, 3, 6, MORPH_CODES_DONE},         {four, 4, 21, MORPH_CODES_DONE}, {four, 1, 64, MORPH_CODES_DONE},
        {four, 4, 22, MORPH_CODES_UNDECODABLE}, {four, 5, 6, MORPH_CODES_POINTS}, {four, 0, 6, MORPH_CODES_POINTS},
        {twice, 2, 6, MORPH_CODES_POINTS},      {zero, 2, 6, MORPH_CODES_POINTS}, {four, 1, 0, MORPH_CODES_WIDTH},
        {four, 1, 65, MORPH_CODES_WIDTH},
    };
    for (size_t i = 0; i < sizeof rows / sizeof *rows; i++)
        expect(morph_codes_check(rows[i].points, rows[i].count, rows[i].width) == rows[i].status, "check, row", i);
    long refused = 0;
    uint32_t status = MORPH_CODES_MEMORY;
    for (; refused < 10000 && status == MORPH_CODES_MEMORY; refused++) {
        granted = refused;
        status = morph_codes_check(four, 4, 22);
        granted = -1;
    }
    expect(refused > 1 && status == MORPH_CODES_UNDECODABLE, "check with malloc refused", (size_t)refused);
    static const uint32_t first[3] = {0, 1, 2};
    uint8_t row[K] = {0x77, 0x77, 0x77, 0x77, 0x77, 0x77};
    for (refused = 0, status = MORPH_CODES_MEMORY; refused < 10000 && status == MORPH_CODES_MEMORY; refused++) {
        granted = refused;
        status = morph_codes_decode_row(points, P, K, first, 3, first, 3, 1, row, K);
        granted = -1;
        if (status == MORPH_CODES_MEMORY)
            expect(row[0] == 0x77 && row[K - 1] == 0x77, "a row without memory was written", (size_t)refused);
    }
    expect(refused > 1 && status == MORPH_CODES_DONE, "a row with malloc refused", (size_t)refused);
}

/* Decodings and plans with malloc refused at each call in turn. */
static void refuse_memory(void)
{
    static const uint32_t first[3] = {0, 1, 2};
    static uint8_t data[8];
    for (int kept = 0; kept < 2; kept++) {
        uint8_t out[P * K];
        memset(out, 0x77, sizeof out);
        piece left[K];
        for (int t = 0; t < K; t++)
            left[t] = (piece){data, 6};
        room rooms[P] = {{out, 6}, {out + 6, 6}, {out + 12, 6}};
        long refused = 0;
        uint32_t status = MORPH_CODES_MEMORY;
        for (; refused < 10000 && status == MORPH_CODES_MEMORY; refused++) {
            granted = refused;
            status = kept ? morph_codes_plan(points, P, K, first, 3, first, 3, out, sizeof out)
                          : morph_codes_decode(points, P, K, first, 3, first, 3, left, K, 6, rooms, P);
            granted = -1;
            for (size_t x = 0; x < sizeof out && status == MORPH_CODES_MEMORY; x++)
                expect(out[x] == 0x77, "a call without memory has written", x);
        }
        expect(refused > 1 && status == MORPH_CODES_DONE, kept ? "a plan with malloc refused" :
               "a decoding with malloc refused", (size_t)refused);
    }
}

int main(void)
{
    for (size_t i = 0; i < sizeof sizes / sizeof *sizes; i++)
        compare(sizes[i]);
    refuse();
    check();
    refuse_memory();
    granted = 0;
    static uint8_t data[64], out[64];
    piece one = {data, 64};
    room made = {out, 64};
    expect(morph_codes_encode(points, 1, &one, 1, 64, &made, 1) == MORPH_CODES_DONE &&
               morph_codes_merge(2, 6, &one, 1, 0, out, 64) == MORPH_CODES_DONE &&
               morph_codes_combine(points, 1, &one, 1, 0, out, 64) == MORPH_CODES_DONE &&
               morph_codes_apply(points, 1, &one, 1, 64, &made, 1) == MORPH_CODES_DONE, "without memory", 64);
    granted = -1;
    printf("codes: %d passed, %d failed\n", passed, failed);
    return failed != 0;
}
