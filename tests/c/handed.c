/*
 * What the calls over parts hand on: each part, argument by argument, and what they answer. The archive's calls are
 * stand-ins here, which keep what they are given (by_name.h), so that also an argument counts which the call itself
 * would not read. Prints what is not so and ends with 1, or prints one line and ends with 0.
 */
#define STAND_INS
#include "by_name.h"

#include <stdio.h>

/* No two parts begin at the same place, and no two are equally long. */
static const uint8_t bytes[11];
static const uint32_t numbers[2];
static const kahopiru_parts parts = {
    .color_hvcc = {bytes, 1},
    .alpha_hvcc = {bytes + 1, 2},
    .color_lengths = {numbers, 3},
    .alpha_lengths = {numbers + 1, 4},
    .color_samples = {bytes + 2, 5},
    .alpha_samples = {bytes + 3, 6},
    .icc = {bytes + 4, 7},
    .exif = {bytes + 5, 8},
    .gain_hvcc = {bytes + 6, 9},
    .gain_sample = {bytes + 7, 10},
    .gain_xmp = {bytes + 8, 11},
    .gain_tmap = {bytes + 9, 12},
    .alternate_icc = {bytes + 10, 13},
};
static const kahopiru_panel panel = {
    .cols = 14, .rows = 15, .gain = {.alternate = {.cicp = {.full_range = 16}}}, .visible_h = 27};

static int compared = 0, failures = 0;

static void expect(int holds, const char *call, const char *what) {
    compared++;
    if (!holds) {
        fprintf(stderr, "c: the call over parts hands on to %s something else as %s\n", call, what);
        failures++;
    }
}

#define HANDED(call, part, unit)                                \
    do {                                                        \
        expect(call##_took.part == parts.part.data, #call, #part); \
        expect(call##_took.part##_len == parts.part.unit, #call, #part "_len"); \
    } while (0)

#define HANDED_TILES(call)                  \
    do {                                    \
        HANDED(call, color_lengths, count); \
        HANDED(call, alpha_lengths, count); \
        HANDED(call, color_samples, len);   \
        HANDED(call, alpha_samples, len);   \
    } while (0)

#define HANDED_PANEL(call)                                                                                  \
    do {                                                                                                    \
        HANDED_TILES(call);                                                                                 \
        HANDED(call, color_hvcc, len);                                                                      \
        HANDED(call, alpha_hvcc, len);                                                                      \
        HANDED(call, icc, len);                                                                             \
        HANDED(call, exif, len);                                                                            \
        HANDED(call, gain_hvcc, len);                                                                       \
        HANDED(call, gain_sample, len);                                                                     \
        HANDED(call, gain_xmp, len);                                                                        \
        HANDED(call, gain_tmap, len);                                                                       \
        HANDED(call, alternate_icc, len);                                                                   \
        expect(call##_took.panel.cols == panel.cols && call##_took.panel.rows == panel.rows, #call, "panel"); \
        expect(call##_took.panel.gain.alternate.cicp.full_range == 16, #call, "panel");                     \
        expect(call##_took.panel.visible_h == 27, #call, "panel");                                          \
        expect(answer.refusal == call##_answers.refusal, #call, "answer");                                  \
        expect(answer.length == call##_answers.length, #call, "answer");                                    \
    } while (0)

/* The last answer of the length call in a form, and what it was given. */
static void handed_length(kahopiru_answer answer, uint8_t form) {
    HANDED_PANEL(kahopiru_form_length);
    expect(kahopiru_form_length_took.form == form, "kahopiru_form_length", "form");
}

/* The same of the writing call, which was to be given this room. */
static void handed_write(kahopiru_answer answer, uint8_t form, const uint8_t *out, size_t out_len) {
    HANDED_PANEL(kahopiru_form_write);
    expect(kahopiru_form_write_took.form == form, "kahopiru_form_write", "form");
    expect(kahopiru_form_write_took.out == out, "kahopiru_form_write", "out");
    expect(kahopiru_form_write_took.out_len == out_len, "kahopiru_form_write", "out_len");
}

int main(void) {
    kahopiru_form_length_answers = (kahopiru_answer){.refusal = 17, .length = 18};
    handed_length(kahopiru_parts_length(panel, &parts), KAHOPIRU_ORDINARY);
    handed_length(kahopiru_parts_form_length(28, panel, &parts), 28);

    uint8_t out[2];
    kahopiru_form_write_answers = (kahopiru_answer){.refusal = 19, .length = 20};
    handed_write(kahopiru_parts_write(panel, &parts, out, 21), KAHOPIRU_ORDINARY, out, 21);
    handed_write(kahopiru_parts_form_write(29, panel, &parts, out + 1, 30), 29, out + 1, 30);

    kahopiru_tile_answers = (kahopiru_tile_place){.refusal = 22, .alpha = 23, .start = 24, .length = 25};
    const kahopiru_tile_place tile = kahopiru_parts_tile(26, &parts);
    HANDED_TILES(kahopiru_tile);
    expect(kahopiru_tile_took.id == 26, "kahopiru_tile", "id");
    expect(tile.refusal == 22 && tile.alpha == 23, "kahopiru_tile", "answer");
    expect(tile.start == 24 && tile.length == 25, "kahopiru_tile", "answer");

    if (failures)
        return 1;
    printf("c: the calls over parts hand on what they are given: %d values compared\n", compared);
    return 0;
}
