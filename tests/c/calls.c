/* The calls, each with all of its parameters by name. */
#include "trial.h"

/* Arguments by the names that they have in every call that takes them. */
#define TILES(g)                                                                           \
    .color_lengths = (g)->color_lengths.at, .color_lengths_len = (g)->color_lengths.count, \
    .alpha_lengths = (g)->alpha_lengths.at, .alpha_lengths_len = (g)->alpha_lengths.count, \
    .color_samples = (g)->color_samples.at, .color_samples_len = (g)->color_samples.count, \
    .alpha_samples = (g)->alpha_samples.at, .alpha_samples_len = (g)->alpha_samples.count
#define PANEL(g)                                                                           \
    TILES(g), .panel = (g)->panel,                                                         \
    .color_hvcc = (g)->color_hvcc.at, .color_hvcc_len = (g)->color_hvcc.count,             \
    .alpha_hvcc = (g)->alpha_hvcc.at, .alpha_hvcc_len = (g)->alpha_hvcc.count,             \
    .icc = (g)->icc.at, .icc_len = (g)->icc.count,                                         \
    .exif = (g)->exif.at, .exif_len = (g)->exif.count,                                     \
    .gain_hvcc = (g)->gain_hvcc.at, .gain_hvcc_len = (g)->gain_hvcc.count,                 \
    .gain_sample = (g)->gain_sample.at, .gain_sample_len = (g)->gain_sample.count,         \
    .gain_xmp = (g)->xmp.at, .gain_xmp_len = (g)->xmp.count,                               \
    .gain_tmap = (g)->tone_map.at, .gain_tmap_len = (g)->tone_map.count,                   \
    .alternate_icc = (g)->alternate_icc.at, .alternate_icc_len = (g)->alternate_icc.count

static kahopiru_answer plain_length(const given *g) {
    return named_kahopiru_file_length((kahopiru_file_length_arguments){PANEL(g)});
}

static kahopiru_answer plain_write(const given *g, uint8_t *out, size_t out_len) {
    return named_kahopiru_write((kahopiru_write_arguments){PANEL(g), .out = out, .out_len = out_len});
}

static kahopiru_answer plain_form_length(uint8_t form, const given *g) {
    return named_kahopiru_form_length((kahopiru_form_length_arguments){.form = form, PANEL(g)});
}

static kahopiru_answer plain_form_write(uint8_t form, const given *g, uint8_t *out, size_t out_len) {
    return named_kahopiru_form_write(
        (kahopiru_form_write_arguments){.form = form, PANEL(g), .out = out, .out_len = out_len});
}

static kahopiru_tile_place plain_tile(const given *g, uint16_t id) {
    return named_kahopiru_tile((kahopiru_tile_arguments){.id = id, TILES(g)});
}

static kahopiru_bytes lend(bytes b) {
    return (kahopiru_bytes){.data = b.at, .len = b.count};
}

static kahopiru_lengths lend_lengths(numbers n) {
    return (kahopiru_lengths){.data = n.at, .count = n.count};
}

static kahopiru_parts parts_of(const given *g) {
    return (kahopiru_parts){
        .color_hvcc = lend(g->color_hvcc),
        .alpha_hvcc = lend(g->alpha_hvcc),
        .color_lengths = lend_lengths(g->color_lengths),
        .alpha_lengths = lend_lengths(g->alpha_lengths),
        .color_samples = lend(g->color_samples),
        .alpha_samples = lend(g->alpha_samples),
        .icc = lend(g->icc),
        .exif = lend(g->exif),
        .gain_hvcc = lend(g->gain_hvcc),
        .gain_sample = lend(g->gain_sample),
        .gain_xmp = lend(g->xmp),
        .gain_tmap = lend(g->tone_map),
        .alternate_icc = lend(g->alternate_icc),
    };
}

static kahopiru_answer parts_length(const given *g) {
    const kahopiru_parts parts = parts_of(g);
    return named_kahopiru_parts_length((kahopiru_parts_length_arguments){.panel = g->panel, .parts = &parts});
}

static kahopiru_answer parts_write(const given *g, uint8_t *out, size_t out_len) {
    const kahopiru_parts parts = parts_of(g);
    return named_kahopiru_parts_write(
        (kahopiru_parts_write_arguments){.panel = g->panel, .parts = &parts, .out = out, .out_len = out_len});
}

static kahopiru_answer parts_form_length(uint8_t form, const given *g) {
    const kahopiru_parts parts = parts_of(g);
    return named_kahopiru_parts_form_length(
        (kahopiru_parts_form_length_arguments){.form = form, .panel = g->panel, .parts = &parts});
}

static kahopiru_answer parts_form_write(uint8_t form, const given *g, uint8_t *out, size_t out_len) {
    const kahopiru_parts parts = parts_of(g);
    return named_kahopiru_parts_form_write((kahopiru_parts_form_write_arguments){
        .form = form, .panel = g->panel, .parts = &parts, .out = out, .out_len = out_len});
}

static kahopiru_tile_place parts_tile(const given *g, uint16_t id) {
    const kahopiru_parts parts = parts_of(g);
    return named_kahopiru_parts_tile((kahopiru_parts_tile_arguments){.id = id, .parts = &parts});
}

/* The calls that take a form, as calls that take none. Those over parts that take none are themselves these in the
   ordinary form, as handed.c sees. */
#define IN_FORM(road, name, form)                                                            \
    static kahopiru_answer road##_##name##_length(const given *g) {                          \
        return road##_form_length(form, g);                                                  \
    }                                                                                        \
    static kahopiru_answer road##_##name##_write(const given *g, uint8_t *out, size_t len) { \
        return road##_form_write(form, g, out, len);                                         \
    }
IN_FORM(plain, ordinary, KAHOPIRU_ORDINARY)
IN_FORM(plain, wide, KAHOPIRU_WIDE)
IN_FORM(parts, wide, KAHOPIRU_WIDE)

#define PLAIN plain_tile, plain_form_length, plain_form_write
#define PARTS parts_tile, parts_form_length, parts_form_write
const calls roads[ROADS] = {
    {"by arguments", KAHOPIRU_ORDINARY, plain_length, plain_write, PLAIN},
    {"over parts", KAHOPIRU_ORDINARY, parts_length, parts_write, PARTS},
    {"by arguments in the ordinary form", KAHOPIRU_ORDINARY, plain_ordinary_length, plain_ordinary_write, PLAIN},
    {"by arguments in the wide form", KAHOPIRU_WIDE, plain_wide_length, plain_wide_write, PLAIN},
    {"over parts in the wide form", KAHOPIRU_WIDE, parts_wide_length, parts_wide_write, PARTS},
};

kahopiru_answer call_sheet(bytes sheet, uint8_t *out, size_t out_len) {
    return named_kahopiru_sheet((kahopiru_sheet_arguments){
        .sheet = sheet.at, .sheet_len = sheet.count,
        .out = out, .out_len = out_len,
    });
}
