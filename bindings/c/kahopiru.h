/*
 * Kahopiru: a HEIF file writer whose every byte is proved.
 *
 * Since 0.7.0 a file can be asked for in a form. There are two: the ordinary one, in which every file was written
 * before, and the wide one for more than 32,766 tiles. KAHOPIRU_WIDE, below, says more. Callers of 0.6.0 have nothing to
 * change: every struct and every call that there was is as it was, and what was compiled with that header runs with this
 * archive.
 *
 * Since 0.6.0 kahopiru_panel ends in has_visible, visible_w and visible_h, a visible size of the tiles; "What goes in"
 * says what it is for. With has_visible = 0 there is none, and the file is what it was: an initialiser that does not
 * name these fields, or ends before them, needs no change, and code that sets field after field must set has_visible,
 * too. The struct is longer. What was compiled with a header before that still links, but hands its arguments over at
 * other places than the archive takes them from: compile it anew before it runs, and add the three fields wherever
 * another language declares the struct.
 *
 * Since 0.5.0 a panel whose tiles do not cover the picture, or one of whose sizes is 0, is refused with 8; before, any
 * sizes were written.
 *
 * Since 0.3.0 kahopiru_panel has alpha_bit_depth, right behind bit_depth, and code written for an older version must
 * set it: 0 says 8 bits, so a panel of 10 or 12 bits that leaves it out states an alpha of 8. With
 * panel.alpha_bit_depth = panel.bit_depth the file is what it was. Look through initialisers that do not name their
 * fields, too. `tools/show --check FILE` finds a depth that is not the record's.
 *
 * The file holds a colour picture in tiles, an alpha picture in tiles and, where there is one, a gain map with a
 * tone map. A panel is its numbers, kahopiru_panel, and its bytes, kahopiru_parts:
 *
 *     kahopiru_panel panel = {.cols = 1, .rows = 1, .tile_w = 64, .tile_h = 64, .full_w = 64, .full_h = 64};
 *     kahopiru_parts parts = {.color_hvcc = {record, sizeof record}, .color_lengths = {lengths, 1}, ..};
 *     kahopiru_answer answer = kahopiru_parts_write(panel, &parts, out, sizeof out);
 *
 * kahopiru_parts_length answers how long the file will be, kahopiru_parts_write writes it into room that the caller
 * lends. Both answer the same of the same panel; only kahopiru_parts_write can find the room too short.
 * kahopiru_parts_form_length and kahopiru_parts_form_write are these two for a form of the file that the caller names,
 * KAHOPIRU_ORDINARY or KAHOPIRU_WIDE; what takes no form writes the ordinary one. kahopiru_parts_tile answers where
 * among the lent samples the tile of an item id lies. kahopiru_sheet takes a panel as one run of bytes, a sheet.
 * kahopiru_refusal_text says in words why a call refuses.
 *
 * The calls over parts are inline. What they call, and what the archive has, are kahopiru_form_length,
 * kahopiru_form_write and kahopiru_tile, and for the ordinary form alone kahopiru_file_length and kahopiru_write; these
 * take each part as two arguments, as other languages call them.
 *
 * The archive
 * -----------
 * libkahopiru.a is for x86-64 with the System V calling convention (Linux, the BSDs). It allocates nothing and keeps
 * nothing between calls; any number of threads may call it at once. It wants memset of the C library and nothing else.
 * A freestanding program, which can include this header too, supplies that with the meaning that the C standard gives
 * it, as gcc and clang ask of every such program.
 *
 * What goes in
 * ------------
 * Tiles are listed row by row: from left to right, the top row first. Colour and alpha have the same grid.
 *
 * A sample is one coded tile as HEIF stores it: its NAL units, each behind its length in 4 bytes, big-endian. That is
 * not Annex B: there are no start codes (00 00 01). Parameter sets (VPS, SPS, PPS) are not in a sample but in the
 * record.
 *
 * A record is the body of an hvcC box (HEVCDecoderConfigurationRecord), without the box's own 8 bytes of size and type.
 * Its lengthSizeMinusOne must be 3, since the lengths in a sample have 4 bytes. All tiles of a picture share their
 * parameter sets: there is one record for all colour tiles and one for all alpha tiles.
 *
 * tile_w and tile_h are the size of a tile as the decoder puts it out, that is, without what the conformance window of
 * the parameter sets cuts off. Colour and alpha tiles have the same.
 *
 * Where the decoder puts out more than is to be shown, the panel has a visible size: has_visible is 1, and of each tile
 * the first visible_w columns and the first visible_h rows are shown. It is these that lie side by side then, and that
 * have to cover the picture. Tiles of an odd width in 4:2:0 or 4:2:2, or of an odd height in 4:2:0, need one. There the
 * window cuts off columns, or rows, by two, and a decoder puts out even sizes alone; so the encoder pads such a tile by
 * a column or a row, which the decoder puts out, too. For tiles of 63 by 65 pixels in 4:2:0 that is:
 *
 *     {.tile_w = 64, .tile_h = 66, .has_visible = 1, .visible_w = 63, .visible_h = 65, ..}
 *
 * Alpha tiles are padded likewise, also where they have no chroma. Where the decoder puts out just what is to be shown,
 * no visible size is needed; so it is with even tiles, also of an odd picture, beyond which tiles may reach. libheif
 * shows a file with a visible size as it is meant, ffmpeg does not: docs/DIFFERENCES.md, S12.
 *
 * Colour and alpha each have a depth, bit_depth and alpha_bit_depth, which must be the one in the record. Today's
 * readers have trouble with two that differ; docs/DIFFERENCES.md (S11) says which.
 *
 * Neither records nor samples are looked into, and wrong ones give a file that no reader shows. The one exception is
 * the profile in the records of colour and of the gain image; kahopiru_file_length says what for.
 *
 * The bytes of a panel
 * --------------------
 * Each part is lent as a pointer and a length. The lengths of color_lengths and alpha_lengths count entries of four
 * bytes, aligned as uint32_t is; all other lengths count bytes. A null pointer with length 0 is an empty part, and so
 * is a field of kahopiru_parts that is not named. Present and empty is not the same as absent: whether a part belongs
 * to the panel is said by its has_ field, and bytes that are lent beside an absent part are ignored. The parts may
 * overlap one another.
 *
 *   color_hvcc      decoder configuration record of the colour tiles   always part of the panel
 *   alpha_hvcc      decoder configuration record of the alpha tiles    always
 *   color_lengths   length of each colour tile's sample                always
 *   alpha_lengths   length of each alpha tile's sample                 always
 *   color_samples   the samples of all colour tiles, back to back      always
 *   alpha_samples   the samples of all alpha tiles, back to back       always
 *   icc             ICC profile                                        if color.has_icc
 *   exif            Exif, from its TIFF header on, or with the         if has_exif
 *                   six bytes 45 78 69 66 00 00 before that
 *   gain_hvcc       decoder configuration record of the gain image     if has_gain
 *   gain_sample     the gain image's sample                            if has_gain
 *   gain_xmp        XMP packet of the gain image                       if has_gain
 *   gain_tmap       tone map                                           if has_gain and gain.has_tmap
 *   alternate_icc   ICC profile of the alternate colour                if also gain.has_alternate and
 *                                                                      gain.alternate.has_icc
 *
 * Refusals
 * --------
 * A panel is refused with the first of these that holds, in the order 13, 1, 22, 8, 2, 3, 4, 5, 6. Where a call
 * refuses, it answers length 0 and the output keeps every byte that it had.
 *
 *   1   rows or cols is 0 or above 256
 *  22   has_visible is 1, and visible_w or visible_h is 0, or visible_w is above tile_w, or visible_h above tile_h, or
 *       tile_w or tile_h is above 2,147,483,647
 *   8   tile_w, tile_h, full_w or full_h is 0, or cols x tile_w is below full_w, or rows x tile_h below full_h; with
 *       the visible size in the place of tile_w and tile_h where there is one
 *   2   color_lengths or alpha_lengths has not exactly rows x cols entries
 *   3   the colour lengths or the alpha lengths do not sum to the sample bytes lent
 *   4   in the ordinary form the last item id would be above 65,535: 2 x rows x cols + 2, and 1 more for Exif, 2 for
 *       a gain map, 1 for a tone map; in the wide form rows x cols is above 65,535, as 256 x 256 alone is
 *   5   the file would be longer than 4,294,967,295 bytes
 *   6   the output is shorter than the file (the writing calls only)
 *   7   the id names no tile (the tile lookup only)
 *  13   a code names nothing: a form, a depth, an orientation, a colour code, or a field of 0 or 1 that is neither.
 *       Codes beside an absent part are not looked at
 *
 * A sheet is refused with 15 if it has more than 12,288 bytes; else with the first of these that its reading meets;
 * else with 1, 8 or 6, in this order:
 *
 *  11   the sheet ends before its fields do
 *  12   its map has a bit 9 to 15, or 6 without 5, or 7 or 8 without 6
 *  13   a code names nothing
 *  14   bytes are left over
 *
 * No sheet is refused with 22, since none can say a visible size.
 */
#ifndef KAHOPIRU_H
#define KAHOPIRU_H

#include <stddef.h>
#include <stdint.h>

/* The version of header and archive, which is the Rust crate's. While the first number is 0, the second rises where a
   file of any panel, a struct, a call, a refusal or what a sheet says changes, and the third where nothing of that
   does. A change of a file's bytes is told first in docs/CHANGES.md. */
#define KAHOPIRU_VERSION "0.7.0"

#ifdef __cplusplus
extern "C" {
#endif

/* The numbers of refusals, as kahopiru_answer has them. */
enum {
    KAHOPIRU_ACCEPTED = 0,
    KAHOPIRU_GRID_SIDE = 1,
    KAHOPIRU_TILE_COUNT = 2,
    KAHOPIRU_SAMPLE_LENGTHS = 3,
    KAHOPIRU_ITEM_IDS = 4,
    KAHOPIRU_FILE_LENGTH = 5,
    KAHOPIRU_OUTPUT_LENGTH = 6,
    KAHOPIRU_NO_TILE = 7,
    KAHOPIRU_COVER = 8,
    KAHOPIRU_SHEET_ENDS = 11,
    KAHOPIRU_SHEET_MAP = 12,
    KAHOPIRU_CODE = 13,
    KAHOPIRU_SHEET_BYTES_LEFT = 14,
    KAHOPIRU_SHEET_LENGTH = 15,
    KAHOPIRU_VISIBLE_SIZE = 22
};

/* Depths, for bit_depth and alpha_bit_depth. */
enum { KAHOPIRU_EIGHT = 0, KAHOPIRU_TEN = 1, KAHOPIRU_TWELVE = 2 };

/* Orientations, in Exif's order: Exif's number less 1.

   Mirrored ones show mirrored the other way in today's readers: FLIP_H as FLIP_V and FLIP_V as FLIP_H, TRANSPOSE as
   TRANSVERSE and TRANSVERSE as TRANSPOSE. Who needs one of them to show right in these readers passes the other of the
   pair. NORMAL and the three rotations show right. docs/DIFFERENCES.md (S1) says why. */
enum {
    KAHOPIRU_NORMAL = 0,
    KAHOPIRU_FLIP_H = 1,
    KAHOPIRU_ROTATE_180 = 2,
    KAHOPIRU_FLIP_V = 3,
    KAHOPIRU_TRANSPOSE = 4,
    KAHOPIRU_ROTATE_90 = 5,
    KAHOPIRU_TRANSVERSE = 6,
    KAHOPIRU_ROTATE_270 = 7
};

/* Colour by the code points of ISO/IEC 23091-2. A struct of zeros says reserved primaries, a reserved transfer, the
   identity matrix (the components are RGB) and narrow range, which is rarely meant: name the code points wherever they
   are looked at, those of a gain image too. */
typedef struct {
    uint16_t primaries; /* 0 to 2, 4 to 12, or 22 */
    uint16_t transfer;  /* 0 to 2, or 4 to 18 */
    uint16_t matrix;    /* 0 to 17 */
    uint8_t full_range; /* 0 or 1 */
} kahopiru_cicp;

/* Code points by name, each as an initialiser: `.cicp = KAHOPIRU_CICP_SRGB`, `kahopiru_cicp c = KAHOPIRU_CICP_SRGB;`
   and, in an assignment, `c = (kahopiru_cicp)KAHOPIRU_CICP_SRGB` (in C++ without the cast). All are full range. sRGB
   and Display P3 name the matrix of BT.709, as upstream does for sRGB; where the encoder made the components by
   another one, set .matrix to that. */
#define KAHOPIRU_CICP_UNSPECIFIED {2, 2, 2, 1}
#define KAHOPIRU_CICP_SRGB {1, 13, 1, 1}
#define KAHOPIRU_CICP_DISPLAY_P3 {12, 13, 1, 1}

/* How a picture states its colour: by code points, by an ICC profile, by both or by neither. Where the colour picture
   states neither, code points are written all the same (a colr of type nclx): those of KAHOPIRU_CICP_UNSPECIFIED. A
   panel that states just these has the same file. */
typedef struct {
    uint8_t has_cicp; /* 0 or 1 */
    uint8_t has_icc;  /* 0 or 1; the profile is lent beside the panel */
    kahopiru_cicp cicp; /* not looked at if has_cicp is 0 */
} kahopiru_color;

/* The numbers of a gain map. */
typedef struct {
    uint32_t width, height; /* of the gain image, in pixels; any numbers */
    uint8_t bit_depth;      /* of the gain image: 0, 1, 2 for 8, 10, 12 bits */
    uint8_t has_tmap;       /* 0 or 1; the tone map's bytes are lent beside the panel */
    uint8_t has_alternate;  /* 0 or 1 */
    kahopiru_cicp cicp;     /* of the gain image */
    kahopiru_color alternate; /* colour of the tone map's picture; not looked at if has_alternate is 0. One that states
                                 neither code points nor a profile, or has no tone map, is the same as none: nothing of
                                 it is written. But its codes are looked at, tone map or not, and one that names nothing
                                 is refused with 13 */
} kahopiru_gain;

/* The numbers of a panel. Padding between fields is ignored. */
typedef struct {
    uint32_t cols, rows;     /* tiles across and down: 1 to 256 each */
    uint32_t tile_w, tile_h; /* size of a tile as the decoder puts it out, in pixels: 1 or more, and at most
                                2,147,483,647 if has_visible is 1 */
    uint32_t full_w, full_h; /* size of the whole picture, in pixels: 1 or more, and no more than the tiles cover */
    uint8_t bit_depth;       /* of the colour picture: 0, 1, 2 for 8, 10, 12 bits */
    uint8_t alpha_bit_depth; /* of the alpha picture, by the same codes; it is not taken from bit_depth */
    uint8_t orientation;     /* 0 to 7 */
    uint8_t has_light;       /* 0 or 1: the light levels below are part of the panel */
    uint8_t has_exif;        /* 0 or 1; the Exif bytes are lent beside the panel */
    uint8_t has_gain;        /* 0 or 1 */
    uint16_t max_content_light_level;     /* in candela per square metre */
    uint16_t max_pic_average_light_level; /* in candela per square metre */
    kahopiru_color color;
    kahopiru_gain gain;      /* not looked at if has_gain is 0 */
    uint8_t has_visible;     /* 0 or 1: the visible size below is part of the panel */
    uint32_t visible_w, visible_h; /* what is shown of a tile, from its first column and its first row on, in pixels:
                                      1 to tile_w, and 1 to tile_h. Not looked at if has_visible is 0 */
} kahopiru_panel;

/* What a call answers. */
typedef struct {
    uint32_t refusal; /* 0: accepted; else the number of the refusal */
    uint64_t length;  /* of the file, in bytes; 0 if refused */
} kahopiru_answer;

/* The length of the panel's file, or why the panel is refused. Reads the lists of lengths, the second byte of the
   colour record and that of the gain image's record; no sample.

   The low five bits of a record's second byte are the profile, and the profile decides on the brands: 4, range
   extensions, in the colour record makes the file's brand heix, where it is heic else; in the gain image's record alone
   it adds heix to the compatible brands, and the file is 4 bytes longer. A record of fewer than two bytes counts as one
   of another profile. The alpha record's second byte is not looked at. */
kahopiru_answer kahopiru_file_length(
    kahopiru_panel panel,
    const uint8_t *color_hvcc, size_t color_hvcc_len,
    const uint8_t *alpha_hvcc, size_t alpha_hvcc_len,
    const uint32_t *color_lengths, size_t color_lengths_len,
    const uint32_t *alpha_lengths, size_t alpha_lengths_len,
    const uint8_t *color_samples, size_t color_samples_len,
    const uint8_t *alpha_samples, size_t alpha_samples_len,
    const uint8_t *icc, size_t icc_len,
    const uint8_t *exif, size_t exif_len,
    const uint8_t *gain_hvcc, size_t gain_hvcc_len,
    const uint8_t *gain_sample, size_t gain_sample_len,
    const uint8_t *gain_xmp, size_t gain_xmp_len,
    const uint8_t *gain_tmap, size_t gain_tmap_len,
    const uint8_t *alternate_icc, size_t alternate_icc_len);

/* Writes the panel's file to the front of out and answers its length; the bytes of out behind the file keep what they
   had. If it refuses, all of out does. out must be out_len writable bytes that overlap none of the lent parts. */
kahopiru_answer kahopiru_write(
    kahopiru_panel panel,
    const uint8_t *color_hvcc, size_t color_hvcc_len,
    const uint8_t *alpha_hvcc, size_t alpha_hvcc_len,
    const uint32_t *color_lengths, size_t color_lengths_len,
    const uint32_t *alpha_lengths, size_t alpha_lengths_len,
    const uint8_t *color_samples, size_t color_samples_len,
    const uint8_t *alpha_samples, size_t alpha_samples_len,
    const uint8_t *icc, size_t icc_len,
    const uint8_t *exif, size_t exif_len,
    const uint8_t *gain_hvcc, size_t gain_hvcc_len,
    const uint8_t *gain_sample, size_t gain_sample_len,
    const uint8_t *gain_xmp, size_t gain_xmp_len,
    const uint8_t *gain_tmap, size_t gain_tmap_len,
    const uint8_t *alternate_icc, size_t alternate_icc_len,
    uint8_t *out, size_t out_len);

/* The forms of a file, for the calls that take one. A form decides how wide some numbers of a file are; what the file
   says is the same in each.

   ORDINARY is the form in which everything is written that takes no form. An item's id takes 16 bits, so that a picture
   has at most 32,766 tiles, as 254 x 129; with a gain map no grid has more than 32,763, as 201 x 163.

   WIDE is for more tiles than that, such as those of a web press camera: for every grid but 256 x 256. An item's id
   takes 32 bits in pitm, iloc, infe, iref and ipma, and so do the counts of items in iloc and iinf. ISO/IEC 14496-12 has
   versions of these boxes for that, and 23008-12 one of ipma. All else is the same bytes, but for the sizes and offsets
   that follow. Readers that know ids of 16 bits alone do not read such a file; docs/DIFFERENCES.md says which do. Where
   the ordinary form accepts a panel, more readers show its file in that.

   No other number names a form. */
enum { KAHOPIRU_ORDINARY = 0, KAHOPIRU_WIDE = 3 };

/* The length of the panel's file in this form, or why the panel is refused there. A number that names no form is
   refused with 13 before all else. In the ordinary form the answer is that of kahopiru_file_length. In the wide form 4
   holds if rows x cols is above 65,535, and 5 goes by the length of the wide file.

   That is the length of the ordinary file, and two bytes more for each id in those five boxes and for each of the two
   counts. Together these are 16 x rows x cols + 26 bytes, and 8 more for Exif, 18 for a gain map, 12 for a tone map. */
kahopiru_answer kahopiru_form_length(
    uint8_t form,
    kahopiru_panel panel,
    const uint8_t *color_hvcc, size_t color_hvcc_len,
    const uint8_t *alpha_hvcc, size_t alpha_hvcc_len,
    const uint32_t *color_lengths, size_t color_lengths_len,
    const uint32_t *alpha_lengths, size_t alpha_lengths_len,
    const uint8_t *color_samples, size_t color_samples_len,
    const uint8_t *alpha_samples, size_t alpha_samples_len,
    const uint8_t *icc, size_t icc_len,
    const uint8_t *exif, size_t exif_len,
    const uint8_t *gain_hvcc, size_t gain_hvcc_len,
    const uint8_t *gain_sample, size_t gain_sample_len,
    const uint8_t *gain_xmp, size_t gain_xmp_len,
    const uint8_t *gain_tmap, size_t gain_tmap_len,
    const uint8_t *alternate_icc, size_t alternate_icc_len);

/* Writes the panel's file in this form to the front of out, as kahopiru_write does in the ordinary form, and answers
   its length. What kahopiru_form_length refuses it refuses with the same number, and with 6 if out is shorter than the
   file. */
kahopiru_answer kahopiru_form_write(
    uint8_t form,
    kahopiru_panel panel,
    const uint8_t *color_hvcc, size_t color_hvcc_len,
    const uint8_t *alpha_hvcc, size_t alpha_hvcc_len,
    const uint32_t *color_lengths, size_t color_lengths_len,
    const uint32_t *alpha_lengths, size_t alpha_lengths_len,
    const uint8_t *color_samples, size_t color_samples_len,
    const uint8_t *alpha_samples, size_t alpha_samples_len,
    const uint8_t *icc, size_t icc_len,
    const uint8_t *exif, size_t exif_len,
    const uint8_t *gain_hvcc, size_t gain_hvcc_len,
    const uint8_t *gain_sample, size_t gain_sample_len,
    const uint8_t *gain_xmp, size_t gain_xmp_len,
    const uint8_t *gain_tmap, size_t gain_tmap_len,
    const uint8_t *alternate_icc, size_t alternate_icc_len,
    uint8_t *out, size_t out_len);

/* Where a tile's payload lies. */
typedef struct {
    uint32_t refusal; /* 0: accepted; else the number of the refusal, and all else is 0 */
    uint32_t alpha;   /* 1: in alpha_samples; 0: in color_samples */
    uint64_t start;   /* of its first byte there */
    uint64_t length;  /* in bytes; may be 0 */
} kahopiru_tile_place;

/* Where the payload of the tile with this item id lies. With n tiles in each picture, the colour tiles have the ids 1
   to n and the alpha tiles n + 2 to 2n + 1. Refused, in this order, with 2 if the two lists differ in count or are
   empty, 3 if either list does not sum to its bytes, 4 if 2n + 2 is above 65,535, 7 if the id names no tile.

   The lookup keeps to ids of 16 bits. In a wide file the tiles have the same ids; where it has more than 32,766 tiles
   in a picture, the lookup answers 4. */
kahopiru_tile_place kahopiru_tile(
    uint16_t id,
    const uint32_t *color_lengths, size_t color_lengths_len,
    const uint32_t *alpha_lengths, size_t alpha_lengths_len,
    const uint8_t *color_samples, size_t color_samples_len,
    const uint8_t *alpha_samples, size_t alpha_samples_len);

/* Writes the file of the panel that a sheet says to the front of out and answers its length; the rest of out, or all of
   it if refused, keeps what it had. out overlaps no byte of the sheet.

   A sheet has at most 12,288 bytes; docs/SHEET.md says what is in it. It cannot say a visible size, so its panel has
   none. Since 0.3.0 it has an alpha depth, too: an older sheet is refused, as a rule with 11, until its byte 22, the
   depth, is repeated behind it.

   The file can be longer than the sheet, since each tile costs 89 bytes beside its samples; 136,838 bytes of room are
   enough for every sheet. The program behind ./panel has room for 32,768 bytes: 6 there says that the file would be
   longer, and the sheet's author can make fewer tiles or hand the sheet to this call. */
kahopiru_answer kahopiru_sheet(const uint8_t *sheet, size_t sheet_len, uint8_t *out, size_t out_len);

/* A run of bytes that is lent. */
typedef struct {
    const uint8_t *data;
    size_t len; /* in bytes */
} kahopiru_bytes;

/* A list of the lengths of samples that is lent. */
typedef struct {
    const uint32_t *data;
    size_t count; /* of its entries */
} kahopiru_lengths;

/* The bytes of a panel, by the names that the table at the top has. What is not named is empty. */
typedef struct {
    kahopiru_bytes color_hvcc, alpha_hvcc;
    kahopiru_lengths color_lengths, alpha_lengths;
    kahopiru_bytes color_samples, alpha_samples;
    kahopiru_bytes icc, exif;
    kahopiru_bytes gain_hvcc, gain_sample, gain_xmp, gain_tmap;
    kahopiru_bytes alternate_icc;
} kahopiru_parts;

/* kahopiru_form_length over parts. */
static inline kahopiru_answer kahopiru_parts_form_length(uint8_t form, kahopiru_panel panel,
                                                         const kahopiru_parts *parts) {
    return kahopiru_form_length(
        form,
        panel,
        parts->color_hvcc.data, parts->color_hvcc.len,
        parts->alpha_hvcc.data, parts->alpha_hvcc.len,
        parts->color_lengths.data, parts->color_lengths.count,
        parts->alpha_lengths.data, parts->alpha_lengths.count,
        parts->color_samples.data, parts->color_samples.len,
        parts->alpha_samples.data, parts->alpha_samples.len,
        parts->icc.data, parts->icc.len,
        parts->exif.data, parts->exif.len,
        parts->gain_hvcc.data, parts->gain_hvcc.len,
        parts->gain_sample.data, parts->gain_sample.len,
        parts->gain_xmp.data, parts->gain_xmp.len,
        parts->gain_tmap.data, parts->gain_tmap.len,
        parts->alternate_icc.data, parts->alternate_icc.len);
}

/* kahopiru_form_write over parts. */
static inline kahopiru_answer kahopiru_parts_form_write(uint8_t form, kahopiru_panel panel, const kahopiru_parts *parts,
                                                        uint8_t *out, size_t out_len) {
    return kahopiru_form_write(
        form,
        panel,
        parts->color_hvcc.data, parts->color_hvcc.len,
        parts->alpha_hvcc.data, parts->alpha_hvcc.len,
        parts->color_lengths.data, parts->color_lengths.count,
        parts->alpha_lengths.data, parts->alpha_lengths.count,
        parts->color_samples.data, parts->color_samples.len,
        parts->alpha_samples.data, parts->alpha_samples.len,
        parts->icc.data, parts->icc.len,
        parts->exif.data, parts->exif.len,
        parts->gain_hvcc.data, parts->gain_hvcc.len,
        parts->gain_sample.data, parts->gain_sample.len,
        parts->gain_xmp.data, parts->gain_xmp.len,
        parts->gain_tmap.data, parts->gain_tmap.len,
        parts->alternate_icc.data, parts->alternate_icc.len,
        out, out_len);
}

/* kahopiru_file_length over parts: kahopiru_form_length in the ordinary form. */
static inline kahopiru_answer kahopiru_parts_length(kahopiru_panel panel, const kahopiru_parts *parts) {
    return kahopiru_parts_form_length(KAHOPIRU_ORDINARY, panel, parts);
}

/* kahopiru_write over parts: kahopiru_form_write in the ordinary form. */
static inline kahopiru_answer kahopiru_parts_write(kahopiru_panel panel, const kahopiru_parts *parts,
                                                   uint8_t *out, size_t out_len) {
    return kahopiru_parts_form_write(KAHOPIRU_ORDINARY, panel, parts, out, out_len);
}

/* kahopiru_tile over parts, of which it takes the lengths and the samples of colour and alpha. */
static inline kahopiru_tile_place kahopiru_parts_tile(uint16_t id, const kahopiru_parts *parts) {
    return kahopiru_tile(
        id,
        parts->color_lengths.data, parts->color_lengths.count,
        parts->alpha_lengths.data, parts->alpha_lengths.count,
        parts->color_samples.data, parts->color_samples.len,
        parts->alpha_samples.data, parts->alpha_samples.len);
}

/* Why a call refuses, in words, by the number that it answers; "accepted" for 0. Never null. */
static inline const char *kahopiru_refusal_text(uint32_t refusal) {
    switch (refusal) {
    case KAHOPIRU_ACCEPTED:
        return "accepted";
    case KAHOPIRU_GRID_SIDE:
        return "there are no rows or no columns, or more than 256";
    case KAHOPIRU_TILE_COUNT:
        return "there is not exactly one sample length for each tile, in the colour list or in the alpha list";
    case KAHOPIRU_SAMPLE_LENGTHS:
        return "the lengths do not add up to the sample bytes that were handed over";
    case KAHOPIRU_ITEM_IDS:
        return "there are too many tiles: the last item id or, in the wide form, the count in a picture "
               "would be above 65,535";
    case KAHOPIRU_FILE_LENGTH:
        return "the file would be longer than 4,294,967,295 bytes";
    case KAHOPIRU_OUTPUT_LENGTH:
        return "the room for the file is too short";
    case KAHOPIRU_NO_TILE:
        return "the item id names no tile";
    case KAHOPIRU_COVER:
        return "a size of a tile or of the whole picture is 0, "
               "or what the tiles show does not cover the whole picture";
    case KAHOPIRU_SHEET_ENDS:
        return "the sheet ends before its fields do";
    case KAHOPIRU_SHEET_MAP:
        return "the sheet's map asks for something that there is not, "
               "or for a part without the part that it belongs to";
    case KAHOPIRU_CODE:
        return "a form of the file, a depth, an orientation, a colour code, or a yes or no is none that exists";
    case KAHOPIRU_SHEET_BYTES_LEFT:
        return "bytes are left over behind the sheet's last field";
    case KAHOPIRU_SHEET_LENGTH:
        return "the sheet has more than 12,288 bytes";
    case KAHOPIRU_VISIBLE_SIZE:
        return "a tile's visible size is 0 or above its decoded size, or its decoded size is above 2,147,483,647";
    default:
        return "no refusal of this version has this number";
    }
}

#ifdef __cplusplus
}
#endif

#endif
