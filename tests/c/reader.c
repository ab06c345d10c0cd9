/*
 * A reader of good panel sheets, written from the specification, "The panel sheet". A sheet says depths and
 * orientations by numbers; here each is turned into the header's constant of the name that the specification, or the
 * enum of upstream's that it speaks of, has at that number. No sheet says a visible size.
 */
#include "trial.h"

#include <stdio.h>
#include <stdlib.h>
#include <string.h>

static const uint8_t depths[] = {KAHOPIRU_EIGHT, KAHOPIRU_TEN, KAHOPIRU_TWELVE};
static const uint8_t orientations[] = {KAHOPIRU_NORMAL,    KAHOPIRU_FLIP_H,    KAHOPIRU_ROTATE_180, KAHOPIRU_FLIP_V,
                                       KAHOPIRU_TRANSPOSE, KAHOPIRU_ROTATE_90, KAHOPIRU_TRANSVERSE, KAHOPIRU_ROTATE_270};

bytes take(bytes *from, size_t count) {
    if (count > from->count) {
        fprintf(stderr, "c: a sheet of the list, or a box of a file, ends before its fields do\n");
        exit(1);
    }
    bytes taken = {from->at, count};
    from->at += count;
    from->count -= count;
    return taken;
}

uint32_t number(bytes *from, size_t count) {
    bytes digits = take(from, count);
    uint32_t n = 0;
    for (size_t i = 0; i < count; i++)
        n = n << 8 | digits.at[i];
    return n;
}

static bytes string(bytes *sheet) {
    return take(sheet, number(sheet, 4));
}

static numbers list(bytes *sheet, size_t count, uint32_t *room) {
    for (size_t i = 0; i < count; i++)
        room[i] = number(sheet, 4);
    return (numbers){room, count};
}

static size_t sum(numbers list) {
    size_t s = 0;
    for (size_t i = 0; i < list.count; i++)
        s += list.at[i];
    return s;
}

/* One of a list of constants, by the number that a sheet has for it. */
static uint8_t named(bytes *sheet, const uint8_t *constants, size_t count) {
    uint32_t n = number(sheet, 1);
    if (n >= count) {
        fprintf(stderr, "c: a sheet of the list has the code %u, which names nothing\n", (unsigned)n);
        exit(1);
    }
    return constants[n];
}

static kahopiru_cicp read_cicp(bytes *sheet) {
    uint16_t primaries = (uint16_t)number(sheet, 2);
    uint16_t transfer = (uint16_t)number(sheet, 2);
    uint16_t matrix = (uint16_t)number(sheet, 2);
    uint8_t full_range = (uint8_t)number(sheet, 1);
    return (kahopiru_cicp){.primaries = primaries, .transfer = transfer, .matrix = matrix, .full_range = full_range};
}

/* Bytes that would be seen if they were written, and codes that name nothing. */
static const uint8_t junk_bytes[] = {'j', 'u', 'n', 'k'};
static const kahopiru_cicp junk_cicp = {.primaries = 3, .transfer = 3, .matrix = 18, .full_range = 2};

given read_sheet(bytes sheet, uint32_t *lengths, bool junk) {
    const bytes no_bytes = junk ? (bytes){junk_bytes, sizeof junk_bytes} : nothing;
    const kahopiru_cicp no_cicp = junk ? junk_cicp : (kahopiru_cicp){.primaries = 0};
    const uint8_t no_code = junk ? 9 : 0;
    const uint32_t map = number(&sheet, 2);
    const bool has_cicp = map & 1, has_icc = map & 2, has_orientation = map & 4, has_light = map & 8;
    const bool has_exif = map & 16, has_gain = map & 32, has_tone_map = map & 64;
    const bool has_alternate_cicp = map & 128, has_alternate_icc = map & 256;
    given g;

    const uint32_t cols = number(&sheet, 2), rows = number(&sheet, 2);
    const uint32_t tile_w = number(&sheet, 4), tile_h = number(&sheet, 4);
    const uint32_t full_w = number(&sheet, 4), full_h = number(&sheet, 4);
    const uint8_t depth = named(&sheet, depths, sizeof depths);
    const uint8_t alpha_depth = named(&sheet, depths, sizeof depths);
    g.color_hvcc = string(&sheet);
    g.alpha_hvcc = string(&sheet);
    g.color_lengths = list(&sheet, cols * rows, lengths);
    g.alpha_lengths = list(&sheet, cols * rows, lengths + cols * rows);
    g.color_samples = take(&sheet, sum(g.color_lengths));
    g.alpha_samples = take(&sheet, sum(g.alpha_lengths));

    const kahopiru_cicp cicp = has_cicp ? read_cicp(&sheet) : no_cicp;
    g.icc = has_icc ? string(&sheet) : no_bytes;
    const uint8_t orientation =
        has_orientation ? named(&sheet, orientations, sizeof orientations) : (uint8_t)KAHOPIRU_NORMAL;
    const uint16_t most_light = has_light ? (uint16_t)number(&sheet, 2) : no_code;
    const uint16_t average_light = has_light ? (uint16_t)number(&sheet, 2) : no_code;
    g.exif = has_exif ? string(&sheet) : no_bytes;

    g.gain_hvcc = has_gain ? string(&sheet) : no_bytes;
    g.gain_sample = has_gain ? string(&sheet) : no_bytes;
    const uint32_t gain_width = has_gain ? number(&sheet, 4) : no_code;
    const uint32_t gain_height = has_gain ? number(&sheet, 4) : no_code;
    const uint8_t gain_depth = has_gain ? named(&sheet, depths, sizeof depths) : no_code;
    const kahopiru_cicp gain_cicp = has_gain ? read_cicp(&sheet) : no_cicp;
    g.xmp = has_gain ? string(&sheet) : no_bytes;
    g.tone_map = has_tone_map ? string(&sheet) : no_bytes;
    const kahopiru_cicp alternate_cicp = has_alternate_cicp ? read_cicp(&sheet) : no_cicp;
    g.alternate_icc = has_alternate_icc ? string(&sheet) : no_bytes;

    const bool has_alternate = has_alternate_cicp || has_alternate_icc;
    const kahopiru_color alternate = (kahopiru_color){
        .has_cicp = has_alternate ? has_alternate_cicp : no_code,
        .has_icc = has_alternate ? has_alternate_icc : no_code,
        .cicp = alternate_cicp,
    };
    const kahopiru_gain gain = (kahopiru_gain){
        .width = gain_width,
        .height = gain_height,
        .bit_depth = gain_depth,
        .has_tmap = has_gain ? has_tone_map : no_code,
        .has_alternate = has_gain ? has_alternate : no_code,
        .cicp = gain_cicp,
        .alternate = alternate,
    };
    const kahopiru_color color = (kahopiru_color){.has_cicp = has_cicp, .has_icc = has_icc, .cicp = cicp};
    g.panel = (kahopiru_panel){
        .cols = cols,
        .rows = rows,
        .tile_w = tile_w,
        .tile_h = tile_h,
        .full_w = full_w,
        .full_h = full_h,
        .bit_depth = depth,
        .alpha_bit_depth = alpha_depth,
        .orientation = orientation,
        .has_light = has_light,
        .has_exif = has_exif,
        .has_gain = has_gain,
        .max_content_light_level = most_light,
        .max_pic_average_light_level = average_light,
        .color = color,
        .gain = gain,
        .has_visible = 0,
        .visible_w = no_code,
        .visible_h = no_code,
    };
    return g;
}

bytes from_hex(const char *digits, uint8_t *room) {
    size_t count = strlen(digits) / 2;
    for (size_t i = 0; i < count; i++) {
        unsigned byte;
        if (sscanf(digits + 2 * i, "%2x", &byte) != 1) {
            fprintf(stderr, "c: not hexadecimal: %s\n", digits);
            exit(1);
        }
        room[i] = (uint8_t)byte;
    }
    return (bytes){room, count};
}
