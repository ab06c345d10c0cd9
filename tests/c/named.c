/* The code points that the header gives a name, and its version. */
#include "trial.h"

#include <string.h>

given panel_p(void) {
    static const uint8_t color_hvcc[] = {1, 1}, alpha_hvcc[] = {1, 4}, color[] = {0xAA}, alpha[] = {0xBB};
    static const uint32_t one[] = {1};
    return (given){
        .panel = (kahopiru_panel){.cols = 1, .rows = 1, .tile_w = 64, .tile_h = 64, .full_w = 64, .full_h = 64},
        .color_hvcc = {color_hvcc, 2},
        .alpha_hvcc = {alpha_hvcc, 2},
        .color_lengths = {one, 1},
        .alpha_lengths = {one, 1},
        .color_samples = {color, 1},
        .alpha_samples = {alpha, 1},
    };
}

/* Code points by name, and what the colr behind its type nclx has for them. */
static const struct {
    const char *name;
    kahopiru_cicp cicp;
    uint8_t written[7];
} named_points[] = {
    {"unspecified", KAHOPIRU_CICP_UNSPECIFIED, {0, 2, 0, 2, 0, 2, 0x80}},
    {"sRGB", KAHOPIRU_CICP_SRGB, {0, 1, 0, 13, 0, 1, 0x80}},
    {"Display P3", KAHOPIRU_CICP_DISPLAY_P3, {0, 12, 0, 13, 0, 1, 0x80}},
};

/* P's file where it states these code points, or none. */
static bytes file_of(const kahopiru_cicp *cicp, uint8_t *room) {
    given p = panel_p();
    if (cicp)
        p.panel.color = (kahopiru_color){.has_cicp = 1, .cicp = *cicp};
    return (bytes){room, (size_t)by->write(&p, room, ROOM).length};
}

static void code_points(void) {
    enum { FILE_LENGTH = 556, NCLX = 397 };
    static uint8_t unstated[ROOM], stated[ROOM];
    expect(file_of(NULL, unstated).count == FILE_LENGTH && memcmp(unstated + NCLX - 4, "nclx", 4) == 0, "no colour",
           "a colr of type nclx is written");
    for (size_t i = 0; i < sizeof named_points / sizeof *named_points; i++) {
        const bytes file = file_of(&named_points[i].cicp, stated);
        expect(file.count == FILE_LENGTH && memcmp(stated + NCLX, named_points[i].written, 7) == 0,
               named_points[i].name, "its code points are written");
    }
    const kahopiru_cicp unspecified = KAHOPIRU_CICP_UNSPECIFIED;
    const bytes file = file_of(&unspecified, stated);
    expect(memcmp(stated, unstated, file.count) == 0, "unspecified", "it is what is written of no colour");

    kahopiru_cicp assigned = unspecified;
    assigned = (kahopiru_cicp)KAHOPIRU_CICP_SRGB;
    expect(assigned.primaries == 1 && assigned.full_range == 1, "sRGB", "it can be assigned");
}

void try_named(void) {
    code_points();
    expect(strchr(KAHOPIRU_VERSION, '.') != NULL, KAHOPIRU_VERSION, "it is a version");
}
