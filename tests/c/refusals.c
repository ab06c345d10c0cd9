/*
 * Every refusal that a call can give, from an input that the specification refuses so ("Who can cause a refusal"), by the
 * header's name for it.
 */
#include "trial.h"

#include <stdio.h>
#include <stdlib.h>
#include <string.h>

/* The specification's numbers, and the header's names. */
static const struct {
    uint32_t number, constant;
} specified[] = {
    {0, KAHOPIRU_ACCEPTED},    {1, KAHOPIRU_GRID_SIDE},    {2, KAHOPIRU_TILE_COUNT},        {3, KAHOPIRU_SAMPLE_LENGTHS},
    {4, KAHOPIRU_ITEM_IDS},    {5, KAHOPIRU_FILE_LENGTH},  {6, KAHOPIRU_OUTPUT_LENGTH},     {7, KAHOPIRU_NO_TILE},
    {8, KAHOPIRU_COVER},       {11, KAHOPIRU_SHEET_ENDS},  {12, KAHOPIRU_SHEET_MAP},        {13, KAHOPIRU_CODE},
    {14, KAHOPIRU_SHEET_BYTES_LEFT}, {15, KAHOPIRU_SHEET_LENGTH}, {22, KAHOPIRU_VISIBLE_SIZE},
};

static const char *text_of(uint32_t refusal) {
    return named_kahopiru_refusal_text((kahopiru_refusal_text_arguments){.refusal = refusal});
}

/* Each has the specification's number and a text that is no other number's. */
static void numbers_and_texts(void) {
    const char *unknown = text_of(UINT32_MAX);
    expect(unknown && *unknown, "a number that is no refusal's", "it has a text");
    expect(strcmp(text_of(KAHOPIRU_ACCEPTED), "accepted") == 0, "the refusals", "the text of 0 is accepted");
    for (size_t i = 0; i < sizeof specified / sizeof *specified; i++) {
        expect(specified[i].constant == specified[i].number, "the refusals", "each has the specification's number");
        const char *text = text_of(specified[i].constant);
        expect(text && strcmp(text, unknown) != 0, "the refusals", "each has a text");
        for (size_t k = 0; text && k < i; k++)
            expect(strcmp(text, text_of(specified[k].constant)) != 0, text, "it is the text of one refusal");
    }
}

/* The calls, what the specification lets each refuse with (a bit for each number), and what it has refused with here. */
enum call { LENGTH, WRITE, TILE, SHEET, CALLS };
static const uint32_t possible[CALLS] = {
    [LENGTH] = 1 << 1 | 1 << 22 | 1 << 8 | 1 << 2 | 1 << 3 | 1 << 4 | 1 << 5 | 1 << 13,
    [WRITE] = 1 << 1 | 1 << 22 | 1 << 8 | 1 << 2 | 1 << 3 | 1 << 4 | 1 << 5 | 1 << 6 | 1 << 13,
    [TILE] = 1 << 2 | 1 << 3 | 1 << 4 | 1 << 7,
    [SHEET] = 1 << 1 | 1 << 8 | 1 << 6 | 1 << 11 | 1 << 12 | 1 << 13 | 1 << 14 | 1 << 15,
};
static uint32_t met[CALLS];
static int refused_calls = 0;

/* Looks at a refusal; why is the input's fault. */
static void look(enum call call, uint32_t found, uint32_t constant, const char *why) {
    expect(found == constant, why, "it is refused by its name");
    if (found < 32)
        met[call] |= UINT32_C(1) << found;
    refused_calls++;
}

static void refused_answer(enum call call, kahopiru_answer found, uint32_t constant, const char *why) {
    look(call, found.refusal, constant, why);
    expect(same_answer(found, (kahopiru_answer){.refusal = constant, .length = 0}), why, "the length answered is 0");
    expect(room_holds(nothing), why, "the room is as it was");
}

/* The length call and the writing call refuse a panel. */
static void refused(const given *g, uint32_t constant, const char *why) {
    uint8_t *out = lend_room();
    refused_answer(LENGTH, by->length(g), constant, why);
    refused_answer(WRITE, by->write(g, out, ROOM), constant, why);
}

static void refused_tile(const given *g, uint16_t id, uint32_t constant, const char *why) {
    kahopiru_tile_place found = by->tile(g, id);
    look(TILE, found.refusal, constant, why);
    expect(found.alpha == 0 && found.start == 0 && found.length == 0, why, "the place answered is 0");
}

static void refused_sheet(bytes sheet, size_t out_len, uint32_t constant, const char *why) {
    uint8_t *out = lend_room();
    refused_answer(SHEET, call_sheet(sheet, out, out_len), constant, why);
}

/* Panel P's sheet, and room for changed ones. */
static const char p_digits[] = "0000000100010000004000000040000000400000004000000000000201010000000201040000000100000001AABB";
enum { P_BYTES = sizeof p_digits / 2, MOST_SHEET = 12288 };
static uint8_t p_sheet[P_BYTES], changed[MOST_SHEET + 1];

static void sides(const given *p) {
    given g = *p;
    g.panel.rows = 0;
    refused(&g, KAHOPIRU_GRID_SIDE, "no rows");
    g.panel.rows = 257;
    refused(&g, KAHOPIRU_GRID_SIDE, "257 rows");
    g = *p;
    g.panel.cols = 0;
    refused(&g, KAHOPIRU_GRID_SIDE, "no columns");
    g.panel.cols = 257;
    refused(&g, KAHOPIRU_GRID_SIDE, "257 columns");
}

/* Sizes of two rows of three tiles and of their picture, and what the panel is answered. */
static const struct {
    uint32_t tile_w, tile_h, full_w, full_h, refusal;
    const char *why;
} sized[] = {
    {64, 32, 192, 64, KAHOPIRU_ACCEPTED, "tiles that end where the picture does"},
    {64, 32, 191, 63, KAHOPIRU_ACCEPTED, "tiles that reach one further"},
    {64, 32, 193, 64, KAHOPIRU_COVER, "a picture one wider than its tiles"},
    {64, 32, 192, 65, KAHOPIRU_COVER, "a picture one higher than its tiles"},
    {0, 32, 192, 64, KAHOPIRU_COVER, "tiles of no width"},
    {64, 0, 192, 64, KAHOPIRU_COVER, "tiles of no height"},
    {64, 32, 0, 64, KAHOPIRU_COVER, "a picture of no width"},
    {64, 32, 192, 0, KAHOPIRU_COVER, "a picture of no height"},
    {UINT32_MAX, 32, UINT32_MAX, 64, KAHOPIRU_ACCEPTED, "tiles that reach beyond 32 bits, across"},
    {64, UINT32_MAX, 192, UINT32_MAX, KAHOPIRU_ACCEPTED, "tiles that reach beyond 32 bits, down"},
};

/* P with a grid of empty tiles. */
static given grid(const given *p, uint32_t cols, uint32_t rows) {
    static const uint32_t zeros[256 * 256];
    given g = *p;
    g.panel.cols = cols;
    g.panel.rows = rows;
    g.color_lengths = g.alpha_lengths = (numbers){zeros, (size_t)cols * rows};
    g.color_samples = g.alpha_samples = nothing;
    return g;
}

/* A panel must be accepted, or refused with this number. */
static void judged(const given *g, uint32_t refusal, const char *why) {
    if (refusal == KAHOPIRU_ACCEPTED)
        expect(by->length(g).refusal == KAHOPIRU_ACCEPTED, why, "it is accepted");
    else
        refused(g, refusal, why);
}

static void sizes(const given *p) {
    static const uint32_t two[] = {1, 0};
    given g = grid(p, 3, 2);
    for (size_t i = 0; i < sizeof sized / sizeof *sized; i++) {
        g.panel.tile_w = sized[i].tile_w;
        g.panel.tile_h = sized[i].tile_h;
        g.panel.full_w = sized[i].full_w;
        g.panel.full_h = sized[i].full_h;
        judged(&g, sized[i].refusal, sized[i].why);
    }

    /* Panels at which two checks hold. */
    g = *p;
    g.panel.full_w = 65;
    g.color_lengths = (numbers){two, 2};
    refused(&g, KAHOPIRU_COVER, "a picture too wide and a colour length too many: 8 before 2");
    g.panel.cols = 0;
    refused(&g, KAHOPIRU_GRID_SIDE, "a picture too wide and no columns: 1 before 8");
}

/* Sizes of two rows of three tiles, as decoded and visible, and of their picture, and what the panel is answered. */
static const struct {
    uint32_t tile_w, tile_h, visible_w, visible_h, full_w, full_h, refusal;
    const char *why;
} seen[] = {
    {64, 32, 63, 31, 189, 62, KAHOPIRU_ACCEPTED, "visible tiles that end where the picture does"},
    {64, 32, 63, 31, 190, 62, KAHOPIRU_COVER, "a picture one wider than its visible tiles"},
    {64, 32, 63, 31, 189, 63, KAHOPIRU_COVER, "a picture one higher than its visible tiles"},
    {64, 32, 63, 31, 0, 62, KAHOPIRU_COVER, "a picture of no width, and visible tiles"},
    {64, 32, 63, 31, 189, 0, KAHOPIRU_COVER, "a picture of no height, and visible tiles"},
    {64, 32, 64, 32, 192, 64, KAHOPIRU_ACCEPTED, "tiles all of which is visible"},
    {64, 32, 0, 31, 189, 62, KAHOPIRU_VISIBLE_SIZE, "no visible width"},
    {64, 32, 63, 0, 189, 62, KAHOPIRU_VISIBLE_SIZE, "no visible height"},
    {64, 32, 65, 31, 189, 62, KAHOPIRU_VISIBLE_SIZE, "a visible width one above the decoded"},
    {64, 32, 63, 33, 189, 62, KAHOPIRU_VISIBLE_SIZE, "a visible height one above the decoded"},
    {64, 32, UINT32_MAX, 31, 189, 62, KAHOPIRU_VISIBLE_SIZE, "a visible width of 32 bits"},
    {64, 32, 63, UINT32_MAX, 189, 62, KAHOPIRU_VISIBLE_SIZE, "a visible height of 32 bits"},
    {0, 32, 63, 31, 189, 62, KAHOPIRU_VISIBLE_SIZE, "no decoded width"},
    {64, 0, 63, 31, 189, 62, KAHOPIRU_VISIBLE_SIZE, "no decoded height"},
    {0, 32, 0, 31, 189, 62, KAHOPIRU_VISIBLE_SIZE, "no decoded and no visible width"},
    {64, 0, 63, 0, 189, 62, KAHOPIRU_VISIBLE_SIZE, "no decoded and no visible height"},
    {0x7FFFFFFF, 32, 63, 31, 189, 62, KAHOPIRU_ACCEPTED, "the greatest decoded width"},
    {64, 0x7FFFFFFF, 63, 31, 189, 62, KAHOPIRU_ACCEPTED, "the greatest decoded height"},
    {0x80000000, 32, 63, 31, 189, 62, KAHOPIRU_VISIBLE_SIZE, "a decoded width one above the greatest"},
    {64, 0x80000000, 63, 31, 189, 62, KAHOPIRU_VISIBLE_SIZE, "a decoded height one above the greatest"},
    {UINT32_MAX, 32, UINT32_MAX, 31, 189, 62, KAHOPIRU_VISIBLE_SIZE, "a decoded width of 32 bits, all of it visible"},
    {64, UINT32_MAX, 63, UINT32_MAX, 189, 62, KAHOPIRU_VISIBLE_SIZE, "a decoded height of 32 bits, all of it visible"},
    {0x7FFFFFFF, 32, 0x7FFFFFFF, 31, UINT32_MAX, 62, KAHOPIRU_ACCEPTED, "visible tiles beyond 32 bits, across"},
    {64, 0x7FFFFFFF, 63, 0x7FFFFFFF, 189, 0xFFFFFFFE, KAHOPIRU_ACCEPTED, "visible tiles up to 32 bits, down"},
    {64, 0x7FFFFFFF, 63, 0x7FFFFFFF, 189, UINT32_MAX, KAHOPIRU_COVER, "visible tiles one short of 32 bits, down"},
    {64, 32, 65, 31, 196, 62, KAHOPIRU_VISIBLE_SIZE, "a visible width and a picture too wide: 22 before 8"},
    {64, 32, 63, 0, 189, 0, KAHOPIRU_VISIBLE_SIZE, "no visible height and none of the picture: 22 before 8"},
};

static void visible_sizes(const given *p) {
    given g = grid(p, 3, 2);
    g.panel.has_visible = 1;
    for (size_t i = 0; i < sizeof seen / sizeof *seen; i++) {
        g.panel.tile_w = seen[i].tile_w;
        g.panel.tile_h = seen[i].tile_h;
        g.panel.visible_w = seen[i].visible_w;
        g.panel.visible_h = seen[i].visible_h;
        g.panel.full_w = seen[i].full_w;
        g.panel.full_h = seen[i].full_h;
        judged(&g, seen[i].refusal, seen[i].why);
    }

    /* The neighbours of 22 on its other side, and the code before all. */
    g = *p;
    g.panel.has_visible = 1;
    refused(&g, KAHOPIRU_VISIBLE_SIZE, "a visible size of zeros");
    g.panel.rows = 0;
    refused(&g, KAHOPIRU_GRID_SIDE, "a visible size of zeros and no rows: 1 before 22");
    g.panel.has_visible = 2;
    refused(&g, KAHOPIRU_CODE, "has_visible is 2, and no rows: 13 before 1");

    /* Beside has_visible = 0 the numbers are not looked at. */
    g = *p;
    const kahopiru_answer without = by->length(&g);
    g.panel.visible_w = 65;
    expect(same_answer(by->length(&g), without), "a visible width beside none", "it is not looked at");
    g.panel.visible_w = 0;
    g.panel.visible_h = UINT32_MAX;
    expect(same_answer(by->length(&g), without), "a visible height beside none", "it is not looked at");
}

static void lists(const given *p) {
    static const uint32_t one_more[] = {1, 0};
    given g = *p;
    g.color_lengths = (numbers){one_more, 2};
    refused(&g, KAHOPIRU_TILE_COUNT, "a colour length too many");
    refused_tile(&g, 1, KAHOPIRU_TILE_COUNT, "a colour length too many");
    g = *p;
    g.alpha_lengths.count = 0;
    refused(&g, KAHOPIRU_TILE_COUNT, "an alpha length too few");
    refused_tile(&g, 1, KAHOPIRU_TILE_COUNT, "an alpha length too few");
    g.color_lengths.count = 0;
    refused_tile(&g, 1, KAHOPIRU_TILE_COUNT, "no lengths");
    g = *p;
    g.color_samples.count = 0;
    refused(&g, KAHOPIRU_SAMPLE_LENGTHS, "a colour byte too few");
    refused_tile(&g, 1, KAHOPIRU_SAMPLE_LENGTHS, "a colour byte too few");
    g = *p;
    g.alpha_samples = (bytes){p_sheet, 2};
    refused(&g, KAHOPIRU_SAMPLE_LENGTHS, "an alpha byte too many");
    refused_tile(&g, 1, KAHOPIRU_SAMPLE_LENGTHS, "an alpha byte too many");
}

/* In the ordinary form 217 x 151 tiles need the id 65,536; 254 x 129 leave one id above the alpha grid's, and a gain map
   wants two. In the wide form 4 goes by the tiles alone. The lookup has no form, and keeps to ordinary ids. */
static void ids(const given *p) {
    enum { JUST = 254 * 129 };
    const uint32_t beyond = by->form == KAHOPIRU_WIDE ? KAHOPIRU_ACCEPTED : KAHOPIRU_ITEM_IDS;
    given g = grid(p, 217, 151);
    judged(&g, beyond, "217 x 151 tiles");
    refused_tile(&g, 1, KAHOPIRU_ITEM_IDS, "217 x 151 tiles");
    g = grid(p, 254, 129);
    g.panel.has_exif = 1;
    judged(&g, KAHOPIRU_ACCEPTED, "254 x 129 tiles and Exif");
    g.panel.has_gain = 1;
    judged(&g, beyond, "254 x 129 tiles, Exif and a gain map");
    g.panel.has_exif = 0;
    judged(&g, beyond, "254 x 129 tiles and a gain map");
    refused_tile(&g, JUST + 1, KAHOPIRU_NO_TILE, "the colour grid's id");
    refused_tile(&g, 0, KAHOPIRU_NO_TILE, "the id 0");
    g = grid(p, 255, 256);
    judged(&g, beyond, "255 x 256 tiles");
    refused_tile(&g, 1, KAHOPIRU_ITEM_IDS, "255 x 256 tiles");
    g = grid(p, 256, 255);
    judged(&g, beyond, "256 x 255 tiles");

    /* Panels at which two checks hold. */
    g = grid(p, 256, 256);
    refused(&g, KAHOPIRU_ITEM_IDS, "256 x 256 tiles");
    g.alpha_samples = (bytes){p_sheet, 1};
    refused(&g, KAHOPIRU_SAMPLE_LENGTHS, "256 x 256 tiles and an alpha byte too many: 3 before 4");
    g.color_lengths.count--;
    refused(&g, KAHOPIRU_TILE_COUNT, "256 x 256 tiles and a colour length too few: 2 before 4");
}

/* Eight parts of half a GiB, all the same memory, make a file of more than 4 GiB. Of these the calls read at most the records' second bytes. */
static void too_long(const given *p) {
    const size_t half = (size_t)1 << 29;
    uint8_t *memory = calloc(half, 1);
    expect(memory != NULL, "a file of more than 4 GiB", "there is half a GiB of memory");
    if (!memory)
        return;
    const bytes part = {memory, half};
    given g = *p;
    g.panel.has_exif = g.panel.has_gain = g.panel.gain.has_tmap = g.panel.color.has_icc = 1;
    g.color_hvcc = g.alpha_hvcc = g.icc = g.exif = g.gain_hvcc = g.gain_sample = g.xmp = part;
    expect(by->length(&g).refusal == KAHOPIRU_ACCEPTED, "a file of less than 4 GiB", "it is accepted");
    g.tone_map = part;
    refused(&g, KAHOPIRU_FILE_LENGTH, "a file of more than 4 GiB");
    free(memory);
}

/* A panel in which every code is looked at, and then each of them replaced by codes that name nothing. */
static void codes(const given *p) {
    given every = *p;
    every.panel.has_gain = every.panel.gain.has_tmap = every.panel.gain.has_alternate = 1;
    every.panel.color.has_cicp = every.panel.gain.alternate.has_cicp = 1;
    expect(by->length(&every).refusal == KAHOPIRU_ACCEPTED, "every code", "it is accepted");
#define NAMES_NOTHING(field, code)              \
    do {                                        \
        given g = every;                        \
        g.panel.field = code;                   \
        refused(&g, KAHOPIRU_CODE, #field " is " #code); \
    } while (0)
#define CICP_NAMES_NOTHING(cicp)           \
    do {                                   \
        NAMES_NOTHING(cicp.primaries, 3);  \
        NAMES_NOTHING(cicp.primaries, 13); \
        NAMES_NOTHING(cicp.transfer, 3);   \
        NAMES_NOTHING(cicp.transfer, 19);  \
        NAMES_NOTHING(cicp.matrix, 18);    \
        NAMES_NOTHING(cicp.full_range, 2); \
    } while (0)
    NAMES_NOTHING(bit_depth, 3);
    NAMES_NOTHING(alpha_bit_depth, 3);
    NAMES_NOTHING(orientation, 8);
    NAMES_NOTHING(has_light, 2);
    NAMES_NOTHING(has_exif, 2);
    NAMES_NOTHING(has_gain, 2);
    NAMES_NOTHING(has_visible, 2);
    NAMES_NOTHING(has_visible, 255);
    NAMES_NOTHING(color.has_cicp, 2);
    NAMES_NOTHING(color.has_icc, 2);
    CICP_NAMES_NOTHING(color.cicp);
    NAMES_NOTHING(gain.bit_depth, 3);
    NAMES_NOTHING(gain.has_tmap, 2);
    NAMES_NOTHING(gain.has_alternate, 2);
    CICP_NAMES_NOTHING(gain.cicp);
    NAMES_NOTHING(gain.alternate.has_cicp, 2);
    NAMES_NOTHING(gain.alternate.has_icc, 2);
    CICP_NAMES_NOTHING(gain.alternate.cicp);

    /* Without a tone map the alternate colour is none, but its codes are looked at all the same. */
    every.panel.gain.has_tmap = 0;
    given none = every;
    none.panel.gain.has_alternate = 0;
    expect(same_answer(by->length(&every), by->length(&none)), "an alternate colour without a tone map", "it is none");
    NAMES_NOTHING(gain.alternate.has_cicp, 2);
    NAMES_NOTHING(gain.alternate.has_icc, 2);
    CICP_NAMES_NOTHING(gain.alternate.cicp);
}

/* P's sheet with another byte at a place. */
static bytes with_byte(size_t at, uint8_t byte) {
    memcpy(changed, p_sheet, P_BYTES);
    changed[at] = byte;
    return (bytes){changed, P_BYTES};
}

static void sheets(void) {
    const bytes p = {p_sheet, P_BYTES};
    memset(changed, 0, sizeof changed);
    refused_sheet((bytes){changed, MOST_SHEET + 1}, ROOM, KAHOPIRU_SHEET_LENGTH, "a sheet of 12,289 bytes");
    refused_sheet(with_byte(0, 2), ROOM, KAHOPIRU_SHEET_MAP, "a map with bit 9");
    refused_sheet(with_byte(1, 64), ROOM, KAHOPIRU_SHEET_MAP, "a tone map without a gain map");
    refused_sheet(with_byte(1, 128 | 32), ROOM, KAHOPIRU_SHEET_MAP, "an alternate cicp without a tone map");
    refused_sheet(nothing, ROOM, KAHOPIRU_SHEET_ENDS, "an empty sheet");
    refused_sheet((bytes){p_sheet, P_BYTES - 1}, ROOM, KAHOPIRU_SHEET_ENDS, "P's sheet without its last byte");
    refused_sheet(with_byte(22, 3), ROOM, KAHOPIRU_CODE, "a depth of 3");
    refused_sheet(with_byte(23, 3), ROOM, KAHOPIRU_CODE, "an alpha depth of 3");
    with_byte(0, 0);
    refused_sheet((bytes){changed, P_BYTES + 1}, ROOM, KAHOPIRU_SHEET_BYTES_LEFT, "P's sheet and one byte more");
    with_byte(3, 0);
    refused_sheet((bytes){changed, P_BYTES - 10}, ROOM, KAHOPIRU_GRID_SIDE, "P's sheet with no columns");
    refused_sheet(with_byte(17, 65), ROOM, KAHOPIRU_COVER, "P's sheet with a picture of 65 pixels across");
    refused_sheet(with_byte(9, 0), 555, KAHOPIRU_COVER, "P's sheet with tiles of no width, into 555 bytes");
    refused_sheet(p, 555, KAHOPIRU_OUTPUT_LENGTH, "P's sheet into 555 bytes");
}

/* A sheet of 12,288 bytes whose tiles are many and empty: its file is too long for the program, and for 140,000 bytes
   none is. */
static void long_sheet(void) {
    enum { COLS = 51, ROWS = 30, RECORD_LENGTH = 24, REST = MOST_SHEET - 32 - 8 * COLS * ROWS };
    static uint8_t file[140000];
    memset(changed, 0, sizeof changed);
    changed[3] = COLS;
    changed[5] = ROWS;
    for (int size = 6; size < 22; size += 4)
        changed[size + 3] = 1;
    changed[RECORD_LENGTH + 3] = REST;
    const bytes sheet = {changed, MOST_SHEET};
    refused_sheet(sheet, ROOM, KAHOPIRU_OUTPUT_LENGTH, "a sheet of 1,530 tiles");
    const kahopiru_answer answer = call_sheet(sheet, file, 32768);
    expect(answer.refusal == KAHOPIRU_OUTPUT_LENGTH, "a sheet of 1,530 tiles", "32,768 bytes are too short for it");
    expect(same_answer(call_sheet(sheet, file, sizeof file), (kahopiru_answer){.refusal = 0, .length = 136647}),
           "a sheet of 1,530 tiles", "140,000 bytes are enough for it");
}

int try_refusals(void) {
    numbers_and_texts();
    memset(met, 0, sizeof met);
    refused_calls = 0;
    uint32_t lengths[P_BYTES];
    given p = read_sheet(from_hex(p_digits, p_sheet), lengths, false);
    sides(&p);
    sizes(&p);
    visible_sizes(&p);
    lists(&p);
    ids(&p);
    too_long(&p);
    uint8_t *out = lend_room();
    refused_answer(WRITE, by->write(&p, out, 555), KAHOPIRU_OUTPUT_LENGTH, "P into 555 bytes");
    codes(&p);
    sheets();
    long_sheet();

    static const char *const names[CALLS] = {"the length call", "the writing call", "the tile call", "the sheet call"};
    for (int call = 0; call < CALLS; call++)
        expect(met[call] == possible[call], names[call], "it has given every refusal that it can, and no other");
    return refused_calls;
}
