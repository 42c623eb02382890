/* A stripe of four chunks with two parities loses two chunks, and has them again: in one call, and by a kept plan. */
#include <morph_codes.h>
#include <stdio.h>

int main(void)
{
    static const uint8_t data[4][3] = {"abc", "def", "ghi", "jkl"}, points[2] = {1, 2};
    static const uint32_t lost[2] = {0, 2}, had[2] = {0, 1};
    uint8_t parities[2][3], first[2][3], second[2][3], rows[8];
    struct morph_codes_piece pieces[4];
    struct morph_codes_room rooms[2] = {{parities[0], 3}, {parities[1], 3}};

    for (int t = 0; t < 4; t++)
        pieces[t] = (struct morph_codes_piece){data[t], 3};
    printf("encode: %u\n", morph_codes_encode(points, 2, pieces, 4, 3, rooms, 2));
    struct morph_codes_piece left[4] = {{parities[0], 3}, {parities[1], 3}, pieces[1], pieces[3]};
    struct morph_codes_room once[2] = {{first[0], 3}, {first[1], 3}}, again[2] = {{second[0], 3}, {second[1], 3}};
    printf("decode: %u\n", morph_codes_decode(points, 2, 4, lost, 2, had, 2, left, 4, 3, once, 2));
    printf("plan: %u\n", morph_codes_plan(points, 2, 4, lost, 2, had, 2, rows, 8));
    printf("apply: %u\n", morph_codes_apply(rows, 8, left, 4, 3, again, 2));
    for (int e = 0; e < 2; e++)
        printf("piece %u: %.3s, by the plan %.3s\n", lost[e], first[e], second[e]);
    return 0;
}
