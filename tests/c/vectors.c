/* Upstream's files, written again through every call. */
#include "trial.h"

#include <stdio.h>
#include <stdlib.h>
#include <string.h>

static kahopiru_answer accepted(bytes file) {
    return (kahopiru_answer){.refusal = KAHOPIRU_ACCEPTED, .length = file.count};
}

static const kahopiru_answer short_room = {.refusal = KAHOPIRU_OUTPUT_LENGTH, .length = 0};

/* The length call answers the file's length, and the writing call gives the file where there is room. */
void try_panel(const char *name, const given *g, bytes file) {
    uint8_t *out = lend_room();
    expect(same_answer(by->length(g), accepted(file)), name, "the length call answers the file's length");
    expect(same_answer(by->write(g, out, file.count - 1), short_room), name, "a room one byte short is refused");
    expect(room_holds(nothing), name, "a refused call leaves the room as it was");
    expect(same_answer(by->write(g, out, file.count), accepted(file)), name, "a room of the file's length is enough");
    expect(room_holds(file), name, "the file is as it should be, and nothing is written around it");
    out = lend_room();
    expect(same_answer(by->write(g, out, ROOM), accepted(file)), name, "a longer room is taken as well");
    expect(room_holds(file), name, "the file is as it should be, and the room behind it as it was");
}

static void try_sheet(const char *name, bytes sheet, bytes file) {
    uint8_t *out = lend_room();
    expect(same_answer(call_sheet(sheet, out, file.count - 1), short_room), name, "the sheet call refuses a short room");
    expect(room_holds(nothing), name, "the sheet call, refused, leaves the room as it was");
    expect(same_answer(call_sheet(sheet, out, ROOM), accepted(file)), name, "the sheet call answers the file's length");
    expect(room_holds(file), name, "the sheet call writes the same file and nothing around it");
}

/* Every id up to the first behind the alpha grid's: n colour tiles from 1 on, and from n + 2 on as many of alpha. */
static void try_tiles(const char *name, const given *g) {
    const size_t n = g->color_lengths.count;
    for (size_t id = 0; id <= 2 * n + 3; id++) {
        kahopiru_tile_place wanted =
            (kahopiru_tile_place){.refusal = KAHOPIRU_NO_TILE, .alpha = 0, .start = 0, .length = 0};
        const bool color = 1 <= id && id <= n, alpha = n + 2 <= id && id <= 2 * n + 1;
        if (color || alpha) {
            const uint32_t *lengths = alpha ? g->alpha_lengths.at : g->color_lengths.at;
            const size_t tile = alpha ? id - n - 2 : id - 1;
            wanted.refusal = KAHOPIRU_ACCEPTED;
            wanted.alpha = alpha;
            wanted.length = lengths[tile];
            for (size_t i = 0; i < tile; i++)
                wanted.start += lengths[i];
        }
        kahopiru_tile_place found = by->tile(g, (uint16_t)id);
        expect(found.refusal == wanted.refusal, name, "an id is a tile's if it should be");
        expect(found.alpha == wanted.alpha, name, "a tile is of colour or of alpha as its id says");
        expect(found.start == wanted.start && found.length == wanted.length, name, "a tile lies where its lengths say");
    }
}

/* All of it for one panel: with nothing beside its absent parts, and with what must be ignored. */
static void try_all(const char *name, bytes sheet, bytes file) {
    uint32_t *lengths = malloc(sheet.count * sizeof *lengths);
    for (int junk = 0; junk <= 1; junk++) {
        given g = read_sheet(sheet, lengths, junk);
        try_panel(name, &g, file);
        try_tiles(name, &g);
    }
    try_sheet(name, sheet, file);
    free(lengths);
}

/* The list's tiles and gain images are square, and its alpha samples as long as the colour samples. Here no two sizes,
   no two lengths of samples and no two depths are alike; the file is the sheet call's. */
static void try_uneven(void) {
    static const char digits[] =
        "01FF" "0002" "0001" "00000011" "00000014" "00000013" "00000012"      /* map, grid, sizes */
        "0102" "00000002" "0101" "00000003" "010402"                          /* depths, records */
        "00000001" "00000002" "00000004" "00000000" "A1A2A3" "B1B2B3B4"       /* lengths, samples */
        "0001" "000D" "0006" "01" "00000001" "C1" "06" "03E8" "0190"          /* cicp, ICC, orientation, light level */
        "00000004" "4D4D002A"                                                 /* Exif */
        "00000004" "01010203" "00000005" "D1D2D3D4D5" "00000015" "00000016"   /* gain map: record, sample, sizes */
        "00" "0009" "0010" "000A" "00" "00000006" "E1E2E3E4E5E6"              /* depth, cicp, XMP */
        "00000007" "F1F2F3F4F5F6F7"                                           /* tone map */
        "000C" "0012" "0000" "01" "00000008" "8182838485868788";              /* alternate colour: cicp, ICC */
    uint8_t sheet_room[sizeof digits / 2], file[ROOM];
    bytes sheet = from_hex(digits, sheet_room);
    kahopiru_answer answer = call_sheet(sheet, file, sizeof file);
    expect(answer.refusal == KAHOPIRU_ACCEPTED && answer.length > 0, "uneven", "the sheet call accepts it");
    if (answer.length > 0)
        try_all("uneven", sheet, (bytes){file, (size_t)answer.length});
}

int try_vectors(const char *path) {
    static char name[64], sheet_digits[2 * ROOM + 1], file_digits[2 * ROOM + 1];
    static uint8_t sheet[ROOM], file[ROOM];
    FILE *list = fopen(path, "r");
    int count = 0, read;
    if (!list) {
        perror(path);
        exit(1);
    }
    while ((read = fscanf(list, "%63s %8192s %8192s", name, sheet_digits, file_digits)) == 3) {
        try_all(name, from_hex(sheet_digits, sheet), from_hex(file_digits, file));
        count++;
    }
    expect(read == EOF && count > 0, path, "each line has a name, a sheet and a file");
    fclose(list);
    try_uneven();
    return count + 1;
}
