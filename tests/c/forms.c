/*
 * The forms of a file: numbers that name none, and files in the wide form. P's is made by hand where the form decides;
 * those of more tiles than the ordinary form takes are gone through box by box. What the boxes hold is as ISO/IEC
 * 14496-12 has it for the version that each says (8.11.3, 8.11.4, 8.11.6 and 8.11.12), and 23008-12 (9.3.1).
 */
#include "trial.h"

#include <stdlib.h>
#include <string.h>

/* P with faults for the checks 1, 22, 8, 2 and 3. */
static given faulty(void) {
    given g = panel_p();
    g.panel.rows = 0;
    g.panel.has_visible = 1;
    g.panel.full_w = 0;
    g.color_lengths.count = 0;
    g.alpha_samples.count = 0;
    return g;
}

/* A number that names no form is refused, whatever the panel and the room. */
static void refused_form(uint8_t form, const given *g, const char *name) {
    static const size_t rooms[] = {0, 1, ROOM};
    const kahopiru_answer refused = {.refusal = KAHOPIRU_CODE, .length = 0};
    expect(same_answer(by->form_length(form, g), refused), name, "the length call refuses a form that is none with 13");
    for (size_t i = 0; i < sizeof rooms / sizeof *rooms; i++) {
        uint8_t *out = lend_room();
        expect(same_answer(by->form_write(form, g, out, rooms[i]), refused), name, "the writing call does too");
        expect(room_holds(nothing), name, "the room is as it was");
    }
}

static void codes(void) {
    const given good = panel_p(), bad = faulty();
    expect(KAHOPIRU_ORDINARY == 0 && KAHOPIRU_WIDE == 3, "the forms", "they have the specification's numbers");
    for (int code = 0; code <= UINT8_MAX; code++) {
        const uint8_t form = (uint8_t)code;
        if (form == KAHOPIRU_ORDINARY || form == KAHOPIRU_WIDE) {
            expect(by->form_length(form, &bad).refusal == KAHOPIRU_GRID_SIDE, "a form", "its own code is not refused");
            continue;
        }
        refused_form(form, &good, "P");
        refused_form(form, &bad, "P with many faults");
    }
}

/* P's wide file, piece after piece: by digits what the form decides, and all else as it stands in the ordinary file,
   which has it between these two offsets. */
static const struct {
    const char *digits;
    size_t from, to;
} pieces[] = {
    {"", 0, 28},                                                                  /* ftyp */
    {"00000230" "6D657461" "00000000", 40, 73},                                   /* meta: 518 + 42 bytes; hdlr */
    {"00000010" "7069746D" "01000000" "00000002", 0, 0},                          /* pitm, version 1 */
    {"0000005A" "696C6F63" "02000000" "4400" "00000004"                           /* iloc, version 2: 4 items */
     "00000001" "0000" "0000" "0001" "00000254" "00000001"                        /* item 1: 1 byte at 554 + 42 */
     "00000002" "0001" "0000" "0001" "00000000" "00000008"                        /* item 2: 8 bytes at 0 of idat */
     "00000003" "0000" "0000" "0001" "00000255" "00000001"                        /* item 3: 1 byte at 555 + 42 */
     "00000004" "0001" "0000" "0001" "00000008" "00000008", 0, 0},                /* item 4: 8 bytes at 8 of idat */
    {"0000006C" "69696E66" "01000000" "00000004"                                  /* iinf, version 1: 4 items */
     "00000017" "696E6665" "03000001" "00000001" "0000" "68766331" "00"           /* infe, version 3: item 1, hidden */
     "00000017" "696E6665" "03000000" "00000002" "0000" "67726964" "00"           /* item 2: grid */
     "00000017" "696E6665" "03000001" "00000003" "0000" "68766331" "00"           /* item 3: hvc1, hidden */
     "00000017" "696E6665" "03000000" "00000004" "0000" "67726964" "00", 0, 0},   /* item 4: grid */
    {"00000042" "69726566" "01000000"                                             /* iref, version 1 */
     "00000012" "64696D67" "00000002" "0001" "00000001"                           /* dimg from 2 to one item, 1 */
     "00000012" "64696D67" "00000004" "0001" "00000003"                           /* dimg from 4 to 3 */
     "00000012" "6175786C" "00000004" "0001" "00000002", 0, 0},                   /* auxl from 4 to 2 */
    {"000000D3" "69707270", 327, 483},                                            /* iprp: 203 + 8 bytes; ipco */
    {"0000002F" "69706D61" "01000000" "00000004"                                  /* ipma, version 1: 4 entries */
     "00000001" "03818284" "00000002" "03038405" "00000003" "028682" "00000004" "03030708",
     522, 556},                                                                   /* idat, mdat */
};
enum { P_BYTES = 556, P_WIDE_BYTES = 598 };

static void small_file(void) {
    static uint8_t ordinary[P_BYTES], file[P_WIDE_BYTES];
    const given p = panel_p();
    const kahopiru_answer answer = by->form_write(KAHOPIRU_ORDINARY, &p, ordinary, P_BYTES);
    expect(answer.length == P_BYTES, "P", "its ordinary file is written");
    bytes wanted = {file, 0};
    for (size_t i = 0; i < sizeof pieces / sizeof *pieces; i++) {
        wanted.count += from_hex(pieces[i].digits, file + wanted.count).count;
        memcpy(file + wanted.count, ordinary + pieces[i].from, pieces[i].to - pieces[i].from);
        wanted.count += pieces[i].to - pieces[i].from;
    }
    expect(wanted.count == P_WIDE_BYTES, "P", "the file made by hand has 598 bytes");
    try_panel("P", &p, wanted);
}

/* The body of the next box, which goes away from the front of what is read; it must be of this type. */
static bytes box(bytes *from, const char *type) {
    const uint32_t size = number(from, 4);
    expect(memcmp(take(from, 4).at, type, 4) == 0, type, "it is the next box");
    return take(from, size - 8);
}

/* The same of a FullBox with this version and these flags. */
static bytes full_box(bytes *from, const char *type, uint32_t version, uint32_t flags) {
    bytes body = box(from, type);
    expect(number(&body, 4) == (version << 24 | flags), type, "it has the version of the form");
    return body;
}

/* The next reference, which must be of this type and lead from this item to so many that follow one another. Ids take
   4 bytes, their count 2. */
static void reference(bytes *iref, const char *type, uint32_t from, uint32_t count, uint32_t first) {
    bytes body = box(iref, type);
    expect(number(&body, 4) == from && number(&body, 2) == count, type, "it says its item, and how many it leads to");
    bool leads = true;
    for (uint32_t i = 0; i < count; i++)
        leads &= number(&body, 4) == first + i;
    expect(leads && body.count == 0, type, "it leads to these items and no other");
}

/* The ids of a panel, and how many items there are, which is the last id. Of absent items the ids are not looked at. */
typedef struct {
    uint32_t tiles, colour_grid, alpha_grid, exif, image, xmp, tone, last;
} ids;

static ids ids_of(const given *g) {
    const uint32_t n = g->panel.cols * g->panel.rows, exif = 2 * n + 2 + g->panel.has_exif;
    const uint32_t xmp = exif + 2u * g->panel.has_gain, tone = xmp + (g->panel.has_gain && g->panel.gain.has_tmap);
    return (ids){n, n + 1, 2 * n + 2, exif, xmp - 1, xmp, tone, tone};
}

/* iloc says where each item's payload lies: the descriptors one behind the other in idat, all else in mdat, up to the
   file's end. */
static void look_at_iloc(bytes iloc, ids of, size_t data_at, size_t file_length) {
    bool ordered = true, grids = true, laid = true;
    size_t next = data_at;
    expect(number(&iloc, 2) == 0x4400 && number(&iloc, 4) == of.last, "iloc", "it counts every item, in 4 bytes");
    for (uint32_t id = 1; id <= of.last; id++) {
        ordered &= number(&iloc, 4) == id;
        const bool grid = id == of.colour_grid || id == of.alpha_grid;
        grids &= number(&iloc, 2) == grid;
        laid &= number(&iloc, 2) == 0 && number(&iloc, 2) == 1;
        const uint32_t offset = number(&iloc, 4), length = number(&iloc, 4);
        if (grid) {
            grids &= offset == (id == of.colour_grid ? 0 : length);
        } else {
            laid &= offset == next;
            next += length;
        }
    }
    expect(ordered && iloc.count == 0, "iloc", "it has an entry for each id, in their order, and nothing else");
    expect(grids, "iloc", "the grids, and they alone, lie in idat");
    expect(laid && next == file_length, "iloc", "all other payloads lie in mdat, one behind the other");
}

static const char *type_of(uint32_t id, ids of) {
    if (id == of.colour_grid || id == of.alpha_grid)
        return "grid";
    if (id < of.alpha_grid)
        return "hvc1";
    return id == of.exif ? "Exif" : id == of.image ? "hvc1" : id == of.xmp ? "mime" : "tmap";
}

static void look_at_iinf(bytes iinf, ids of) {
    bool ordered = true, typed = true;
    expect(number(&iinf, 4) == of.last, "iinf", "it counts every item, in 4 bytes");
    for (uint32_t id = 1; id <= of.last; id++) {
        const char *type = type_of(id, of);
        const bool hidden = strcmp(type, "hvc1") == 0 || strcmp(type, "mime") == 0;
        bytes infe = full_box(&iinf, "infe", 3, hidden);
        ordered &= number(&infe, 4) == id;
        typed &= number(&infe, 2) == 0 && memcmp(take(&infe, 4).at, type, 4) == 0;
    }
    expect(ordered && iinf.count == 0, "iinf", "it has an infe for each id, in their order, and nothing else");
    expect(typed, "iinf", "each says its item's type");
}

static void look_at_iref(bytes iref, ids of, const given *g) {
    reference(&iref, "dimg", of.colour_grid, of.tiles, 1);
    reference(&iref, "dimg", of.alpha_grid, of.tiles, of.colour_grid + 1);
    reference(&iref, "auxl", of.alpha_grid, 1, of.colour_grid);
    if (g->panel.has_exif)
        reference(&iref, "cdsc", of.exif, 1, of.colour_grid);
    if (g->panel.has_gain) {
        reference(&iref, "auxl", of.image, 1, of.colour_grid);
        reference(&iref, "cdsc", of.xmp, 1, of.image);
    }
    if (g->panel.has_gain && g->panel.gain.has_tmap) {
        bytes dimg = box(&iref, "dimg");
        expect(number(&dimg, 4) == of.tone && number(&dimg, 2) == 2 && number(&dimg, 4) == of.colour_grid &&
                   number(&dimg, 4) == of.image && dimg.count == 0,
               "dimg", "the tone map leads to the colour grid and the gain image");
    }
    expect(iref.count == 0, "iref", "there is no other reference");
}

/* ipma has an entry for every item but Exif and XMP. */
static void look_at_ipma(bytes ipma, ids of, const given *g) {
    const uint32_t without = (uint32_t)g->panel.has_exif + g->panel.has_gain;
    bool ordered = true;
    expect(number(&ipma, 4) == of.last - without, "ipma", "it counts its entries");
    for (uint32_t id = 1; id <= of.last; id++) {
        if (id > of.alpha_grid && (strcmp(type_of(id, of), "Exif") == 0 || strcmp(type_of(id, of), "mime") == 0))
            continue;
        ordered &= number(&ipma, 4) == id;
        take(&ipma, number(&ipma, 1));
    }
    expect(ordered && ipma.count == 0, "ipma", "it has an entry for each of these ids, in their order");
}

/* The file of a panel, box by box. */
static void look_at(const given *g, bytes file) {
    const ids of = ids_of(g);
    bytes rest = file;
    box(&rest, "ftyp");
    bytes meta = full_box(&rest, "meta", 0, 0);
    full_box(&meta, "hdlr", 0, 0);
    bytes pitm = full_box(&meta, "pitm", 1, 0);
    expect(number(&pitm, 4) == of.colour_grid && pitm.count == 0, "pitm", "the colour grid is the primary item");
    const size_t data_at = file.count - rest.count + 8;
    look_at_iloc(full_box(&meta, "iloc", 2, 0), of, data_at, file.count);
    look_at_iinf(full_box(&meta, "iinf", 1, 0), of);
    look_at_iref(full_box(&meta, "iref", 1, 0), of, g);
    bytes iprp = box(&meta, "iprp");
    box(&iprp, "ipco");
    look_at_ipma(full_box(&iprp, "ipma", 1, 0), of, g);
    const bytes colour = g->color_samples, alpha = g->alpha_samples, mdat = box(&rest, "mdat");
    expect(mdat.count >= colour.count + alpha.count && memcmp(mdat.at, colour.at, colour.count) == 0 &&
               memcmp(mdat.at + colour.count, alpha.at, alpha.count) == 0,
           "mdat", "it begins with the samples");
    expect(rest.count == 0, "the file", "it ends with mdat");
}

/* A panel that the ordinary form refuses with 4 is written in the wide form, and nothing is written around it. */
static void many_tiles(const given *g, const char *name) {
    const kahopiru_answer refused = {.refusal = KAHOPIRU_ITEM_IDS, .length = 0};
    expect(same_answer(by->form_length(KAHOPIRU_ORDINARY, g), refused), name, "the ordinary form refuses it");
    const kahopiru_answer answer = by->length(g);
    expect(answer.refusal == KAHOPIRU_ACCEPTED && answer.length > 0, name, "the wide form accepts it");
    if (answer.length == 0)
        return;
    const size_t length = (size_t)answer.length;
    uint8_t *room = malloc(length + 2);
    expect(room != NULL, name, "there is memory for it");
    if (!room)
        return;
    room[0] = room[length + 1] = 0x5A;
    expect(same_answer(by->write(g, room + 1, length), answer), name, "so many bytes are written");
    expect(room[0] == 0x5A && room[length + 1] == 0x5A, name, "nothing is written around them");
    look_at(g, (bytes){room + 1, length});
    free(room);
}

static void more_tiles_than_ids(void) {
    enum { MOST = 255 * 256 };
    static uint32_t ones[MOST];
    static uint8_t colour[MOST], alpha[MOST];
    for (size_t i = 0; i < MOST; i++) {
        ones[i] = 1;
        colour[i] = (uint8_t)(i * 7);
        alpha[i] = (uint8_t)(i * 11 + 1);
    }
    given g = panel_p();
    g.panel.cols = 256;
    g.panel.rows = 129;
    g.color_lengths = g.alpha_lengths = (numbers){ones, 256 * 129};
    g.color_samples = (bytes){colour, 256 * 129};
    g.alpha_samples = (bytes){alpha, 256 * 129};
    many_tiles(&g, "256 x 129 tiles");

    g.panel.cols = 255;
    g.panel.rows = 256;
    g.color_lengths.count = g.alpha_lengths.count = g.color_samples.count = g.alpha_samples.count = MOST;
    g.panel.orientation = KAHOPIRU_TRANSPOSE;
    g.panel.has_light = g.panel.has_exif = g.panel.has_visible = g.panel.has_gain = g.panel.gain.has_tmap = 1;
    g.panel.visible_w = g.panel.visible_h = 63;
    g.panel.color.has_cicp = g.panel.color.has_icc = g.panel.gain.has_alternate = 1;
    g.panel.gain.alternate.has_cicp = g.panel.gain.alternate.has_icc = 1;
    g.icc = g.exif = g.gain_sample = g.xmp = g.tone_map = g.alternate_icc = (bytes){colour, 5};
    many_tiles(&g, "255 x 256 tiles and all else");
}

void try_forms(void) {
    codes();
    if (by->form == KAHOPIRU_WIDE) {
        small_file();
        more_tiles_than_ids();
    }
}
