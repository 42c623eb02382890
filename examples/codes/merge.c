/* Two stripes of two chunks with a parity each, merged into the parity of one stripe of four: no data is read. */
#include <morph_codes.h>
#include <stdio.h>

int main(void)
{
    static const uint8_t data[4][3] = {"abc", "def", "ghi", "jkl"};
    static const uint8_t point = 2;
    uint8_t narrow[2][3], wide[3], encoded[3];
    struct morph_codes_piece pieces[4], parities[2];

    for (int t = 0; t < 4; t++)
        pieces[t] = (struct morph_codes_piece){data[t], 3};
    printf("check: %u\n", morph_codes_check(&point, 1, 4));
    for (int b = 0; b < 2; b++) {
        struct morph_codes_room room = {narrow[b], 3};
        printf("encode stripe %d: %u\n", b, morph_codes_encode(&point, 1, pieces + 2 * b, 2, 3, &room, 1));
        parities[b] = (struct morph_codes_piece){narrow[b], 3};
    }
    printf("merge: %u\n", morph_codes_merge(point, 2, parities, 2, 0, wide, 3));
    printf("encode afresh: %u\n", morph_codes_encode_block(point, pieces, 4, 0, encoded, 3));
    for (int x = 0; x < 3; x++)
        printf("byte %d: merged %02x, encoded %02x\n", x, wide[x], encoded[x]);
    return 0;
}
