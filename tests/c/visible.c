/* The visible size of a panel's tiles, as its file says it: bytes made by hand, from the specification's panel P. */
#include "trial.h"

#include <string.h>

/* P's file where of its tile of 64 by 64 pixels 63 by 61 are visible, and the picture has this size. It has 42 bytes
   more than P's: a property of 40, and a byte for each of the two tiles, which name it. */
static const char odd_digits[] =
    "0000001C66747970" "6865696300000000" "686569636D6966316D696166"            /* ftyp */
    "000002306D65746100000000"                                                  /* meta: 518 + 42 bytes */
    "0000002168646C7200000000" "0000000070696374" "00000000000000000000000000"  /* hdlr */
    "0000000E7069746D00000000" "0002"                                           /* pitm */
    "00000050696C6F6301000000" "44000004"                                       /* iloc */
    "00010000000000010000025400000001"                                          /* item 1: 1 byte at 554 + 42 */
    "00020001000000010000000000000008"                                          /* item 2: 8 bytes at 0 of idat */
    "00030000000000010000025500000001"                                          /* item 3: 1 byte at 555 + 42 */
    "00040001000000010000000800000008"                                          /* item 4: 8 bytes at 8 of idat */
    "0000006269696E6600000000" "0004"                                           /* iinf */
    "00000015696E666502000001" "000100006876633100"                             /* item 1: hvc1, hidden */
    "00000015696E666502000000" "000200006772696400"                             /* item 2: grid */
    "00000015696E666502000001" "000300006876633100"                             /* item 3: hvc1, hidden */
    "00000015696E666502000000" "000400006772696400"                             /* item 4: grid */
    "000000366972656600000000" "0000000E64696D67000200010001"                   /* iref; dimg from 2 to 1 */
    "0000000E64696D67000400010003" "0000000E6175786C000400010002"               /* dimg from 4 to 3, auxl from 4 to 2 */
    "000000F569707270"                                                          /* iprp: 203 + 42 bytes */
    "000000C46970636F"                                                          /* ipco: 156 + 40 bytes */
    "0000000A68766343" "0101"                                                   /* 1: hvcC */
    "000000146973706500000000" "0000004000000040"                               /* 2: ispe of a tile, as decoded */
    "000000146973706500000000" "0000003F0000003D"                               /* 3: ispe of the picture */
    "00000013636F6C72" "6E636C7800020002000280"                                 /* 4: colr */
    "000000107069786900000000" "03080808"                                       /* 5: pixi */
    "0000000A68766343" "0104"                                                   /* 6: hvcC */
    "0000000E7069786900000000" "0108"                                           /* 7: pixi */
    "000000276175784300000000"                                                  /* 8: auxC */
    "75726E3A6D7065673A686576633A323031353A61757869643A3100"                    /* .. its URN */
    "00000028636C6170"                                                          /* 9: clap */
    "0000003F00000001" "0000003D00000001"                                       /* .. 63 / 1 wide, 61 / 1 high */
    "FFFFFFFF00000002" "FFFFFFFD00000002"                                       /* .. (63 - 64) / 2, (61 - 64) / 2 */
    "0000002969706D6100000000" "00000004"                                       /* ipma: 39 + 2 bytes, 4 entries */
    "00010481828489"                                                            /* item 1: four, 1*, 2*, 4*, 9* */
    "000203038405"                                                              /* item 2: three, 3, 4*, 5 */
    "000303868289"                                                              /* item 3: three, 6*, 2*, 9* */
    "000403030708"                                                              /* item 4: three, 3, 7, 8 */
    "0000001869646174" "00000000003F003D" "00000000003F003D"                    /* idat */
    "0000000A6D646174" "AA" "BB";                                               /* mdat */
enum { ODD_BYTES = 598 };

static void small_file(void) {
    static uint8_t file[sizeof odd_digits / 2];
    const bytes wanted = from_hex(odd_digits, file);
    const kahopiru_answer answer = {.refusal = KAHOPIRU_ACCEPTED, .length = ODD_BYTES};
    given odd = panel_p();
    odd.panel.full_w = 63;
    odd.panel.full_h = 61;
    odd.panel.has_visible = 1;
    odd.panel.visible_w = 63;
    odd.panel.visible_h = 61;
    uint8_t *out = lend_room();
    expect(wanted.count == ODD_BYTES, "63 by 61 of 64 by 64", "the file made by hand has 598 bytes");
    expect(same_answer(by->length(&odd), answer), "63 by 61 of 64 by 64", "the length call answers 598");
    expect(same_answer(by->write(&odd, out, ROOM), answer), "63 by 61 of 64 by 64", "598 bytes are written");
    expect(room_holds(wanted), "63 by 61 of 64 by 64", "they are those made by hand");
}

/* Whether a file has these bytes somewhere. */
static bool has(bytes file, const char *digits) {
    uint8_t room[128];
    const bytes wanted = from_hex(digits, room);
    for (size_t at = 0; at + wanted.count <= file.count; at++)
        if (memcmp(file.at + at, wanted.at, wanted.count) == 0)
            return true;
    return false;
}

/* P turned, with a light level, a gain map and a tone map. The visible size, though it is all of the tile, stands
   behind what the colour grid has, and before what the gain map brings, which it moves up by one. */
static void among_others(void) {
    static const char name[] = "64 by 64 of 64 by 64";
    given g = panel_p();
    g.panel.orientation = KAHOPIRU_TRANSPOSE;
    g.panel.has_light = g.panel.has_gain = g.panel.gain.has_tmap = 1;
    const kahopiru_answer without = by->length(&g);
    g.panel.has_visible = 1;
    g.panel.visible_w = g.panel.visible_h = 64;
    uint8_t *out = lend_room();
    const kahopiru_answer answer = by->write(&g, out, ROOM);
    const bytes file = {out, (size_t)answer.length};
    expect(answer.refusal == KAHOPIRU_ACCEPTED && answer.length == without.length + 42, name, "it takes 42 bytes more");
    expect(has(file, "00000009" "69726F74" "03" "00000009" "696D6972" "00"         /* 9: irot, 10: imir */
                     "0000000C636C6C69" "00000000"                                 /* 11: clli */
                     "00000028636C6170" "0000004000000001" "0000004000000001"      /* 12: clap */
                     "0000000000000002" "0000000000000002"                         /* .. no offset, over 2 */
                     "0000000868766343" "000000146973706500000000"),               /* 13: hvcC, 14: ispe */
           name, "clap stands between clli and the gain image's hvcC");
    expect(has(file, "00000006"                    /* of ipma: 6 entries */
                     "000104" "8182848C"           /* colour tile: 12* is last */
                     "000206" "0384050B898A"       /* colour grid */
                     "000303" "86828C"             /* alpha tile: 12* is last */
                     "000405" "030708898A"         /* alpha grid */
                     "000507" "8D0E0F1011898A"     /* gain image */
                     "000702" "1213"),             /* tone map */
           name, "both kinds of tile name it last, as essential, and nothing else does");
}

/* Each tile of colour and each of alpha names it. */
static void many_tiles(void) {
    static const uint32_t zeros[6];
    given g = panel_p();
    g.panel.cols = 3;
    g.panel.rows = 2;
    g.color_lengths = g.alpha_lengths = (numbers){zeros, 6};
    g.color_samples.count = g.alpha_samples.count = 0;
    const kahopiru_answer without = by->length(&g);
    g.panel.has_visible = 1;
    g.panel.visible_w = g.panel.visible_h = 63;
    const kahopiru_answer with = by->length(&g);
    expect(without.length > 0 && with.length == without.length + 40 + 2 * 6, "six tiles", "it takes 40 + 2 x 6 bytes");
}

void try_visible(void) {
    small_file();
    among_others();
    many_tiles();
}
