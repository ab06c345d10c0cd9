/*
 * Writes the smallest panel, one tile of 64 by 64 with a sample of one byte for colour and for alpha, and checks what
 * it gets. Prints three lines and ends with 0; prints what is wrong and ends with 1 otherwise.
 */
#include "kahopiru.h"

#include <stdio.h>
#include <string.h>

/* The panel's numbers. What is not named is 0: 8 bits, no rotation, no colour stated, every option absent. */
static const kahopiru_panel panel = {.cols = 1, .rows = 1, .tile_w = 64, .tile_h = 64, .full_w = 64, .full_h = 64};

/* Its bytes. Records and samples of an encoder are longer; these are short, so that they are found in the file. */
static const uint8_t color_hvcc[] = {0x01, 0x01};
static const uint8_t alpha_hvcc[] = {0x01, 0x04};
static const uint32_t color_lengths[] = {1};
static const uint32_t alpha_lengths[] = {1};
static const uint8_t color_samples[] = {0xAA};
static const uint8_t alpha_samples[] = {0xBB};

/* The same as parts. What is not named is empty. */
static const kahopiru_parts parts = {
    .color_hvcc = {color_hvcc, sizeof color_hvcc},
    .alpha_hvcc = {alpha_hvcc, sizeof alpha_hvcc},
    .color_lengths = {color_lengths, 1},
    .alpha_lengths = {alpha_lengths, 1},
    .color_samples = {color_samples, sizeof color_samples},
    .alpha_samples = {alpha_samples, sizeof alpha_samples},
};

static int failures = 0;

static void expect(int holds, const char *what) {
    if (!holds) {
        fprintf(stderr, "example: not so: %s\n", what);
        failures++;
    }
}

/* Whether all of these bytes are still the mark that was put there. */
static int untouched(const uint8_t *bytes, size_t count, uint8_t mark) {
    for (size_t i = 0; i < count; i++)
        if (bytes[i] != mark)
            return 0;
    return 1;
}

/* What other languages, which declare these structs again, count on. */
_Static_assert(sizeof(kahopiru_cicp) == 8 && sizeof(kahopiru_color) == 10 && sizeof(kahopiru_gain) == 32, "sizes");
_Static_assert(sizeof(kahopiru_panel) == 88 && sizeof(kahopiru_answer) == 16, "sizes");
_Static_assert(sizeof(kahopiru_tile_place) == 24, "sizes");

int main(void) {
    const uint8_t mark = 0xEE;
    uint8_t out[600];
    memset(out, mark, sizeof out);

    kahopiru_answer length = kahopiru_parts_length(panel, &parts);
    expect(length.refusal == KAHOPIRU_ACCEPTED, "the panel is accepted");
    expect(length.length == 556, "its file has 556 bytes");

    kahopiru_answer late = kahopiru_parts_write(panel, &parts, out, 555);
    expect(late.refusal == KAHOPIRU_OUTPUT_LENGTH && late.length == 0, "555 bytes of room are refused with 6");
    expect(untouched(out, sizeof out, mark), "a refused call leaves the output as it was");

    kahopiru_answer answer = kahopiru_parts_write(panel, &parts, out, sizeof out);
    expect(answer.refusal == KAHOPIRU_ACCEPTED && answer.length == 556, "556 bytes are written");
    expect(memcmp(out + 4, "ftypheic", 8) == 0, "the file begins with ftyp, its brand is heic");
    expect(memcmp(out + 32, "meta", 4) == 0, "meta begins at 28");
    expect(memcmp(out + 550, "mdat", 4) == 0, "mdat begins at 546");
    expect(out[554] == 0xAA && out[555] == 0xBB, "the colour sample is at 554, the alpha sample at 555");
    expect(untouched(out + 556, sizeof out - 556, mark), "the room behind the file is as it was");
    const uint8_t color = out[554], alpha = out[555];

    /* Items 1 and 2 are the colour tile and the colour grid, items 3 and 4 the alpha tile and the alpha grid. */
    kahopiru_tile_place tile = kahopiru_parts_tile(3, &parts);
    expect(tile.refusal == KAHOPIRU_ACCEPTED && tile.alpha == 1 && tile.start == 0 && tile.length == 1,
           "item 3 is the alpha tile");
    expect(kahopiru_parts_tile(2, &parts).refusal == KAHOPIRU_NO_TILE, "item 2, the colour grid, is no tile");

    /* The same panel with its colour stated. */
    kahopiru_panel srgb = panel;
    srgb.color = (kahopiru_color){.has_cicp = 1, .cicp = KAHOPIRU_CICP_SRGB};
    expect(kahopiru_parts_length(srgb, &parts).length == 556, "a colour that is stated takes no more bytes");

    /* The same panel in the wide form, in which ids take 32 bits: 19 ids and 2 counts have two bytes more each. */
    kahopiru_answer wide = kahopiru_parts_form_length(KAHOPIRU_WIDE, panel, &parts);
    expect(wide.refusal == KAHOPIRU_ACCEPTED && wide.length == 598, "the wide file has 598 bytes");
    expect(kahopiru_parts_form_write(KAHOPIRU_WIDE, panel, &parts, out, sizeof out).length == 598, "they are written");
    expect(out[596] == 0xAA && out[597] == 0xBB, "the samples are at 596 and 597 there");

    kahopiru_panel none = panel;
    none.cols = 0;
    kahopiru_answer refused = kahopiru_parts_length(none, &parts);
    expect(refused.refusal == KAHOPIRU_GRID_SIDE, "0 columns are refused with 1");

    if (failures)
        return 1;
    printf("a file of %llu bytes: ftyp at 0, meta at 28, mdat at 546\n", (unsigned long long)answer.length);
    printf("colour sample %02X at 554, alpha sample %02X at 555\n", color, alpha);
    printf("0 columns: refused %u, %s\n", (unsigned)refused.refusal, kahopiru_refusal_text(refused.refusal));
    return 0;
}
