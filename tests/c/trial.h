/*
 * What the files of this folder share. The program uses Kahopiru as a caller in C does, by the names of the header: of
 * its constants, of the fields of its structs and, through by_name.h, which tests/c/by_name makes from the header, of
 * its parameters.
 */
#ifndef TRIAL_H
#define TRIAL_H

#include "by_name.h"

#include <stdbool.h>

/* Bytes and numbers that are lent. */
typedef struct {
    const uint8_t *at;
    size_t count;
} bytes;
static const bytes nothing = {NULL, 0};

typedef struct {
    const uint32_t *at;
    size_t count;
} numbers;

/* A panel with what is lent beside it, in the specification's words. */
typedef struct {
    kahopiru_panel panel;
    numbers color_lengths, alpha_lengths;
    bytes color_hvcc, alpha_hvcc, color_samples, alpha_samples;
    bytes icc, exif, gain_hvcc, gain_sample, xmp, tone_map, alternate_icc;
} given;

/* calls.c: the calls of a panel, each by the names of its parameters: as the archive has them, and over parts; those
   that take no form, and those that take one, in a form. */
typedef struct {
    const char *name;
    uint8_t form; /* that of the next two */
    kahopiru_answer (*length)(const given *g);
    kahopiru_answer (*write)(const given *g, uint8_t *out, size_t out_len);
    kahopiru_tile_place (*tile)(const given *g, uint16_t id);
    kahopiru_answer (*form_length)(uint8_t form, const given *g);
    kahopiru_answer (*form_write)(uint8_t form, const given *g, uint8_t *out, size_t out_len);
} calls;
enum { ROADS = 5 };
extern const calls roads[ROADS];
/* main.c: those of them that are tried now. */
extern const calls *by;
/* calls.c: the sheet call, by the names of its parameters. */
kahopiru_answer call_sheet(bytes sheet, uint8_t *out, size_t out_len);

/* reader.c: the panel that a good sheet says, its lengths read into room for as many as the sheet has bytes. Codes and
   bytes beside absent parts are 0 and null or, if junk, such as would be refused or written were they looked at. */
given read_sheet(bytes sheet, uint32_t *lengths, bool junk);
/* Bytes from hexadecimal digits, into room for half as many. */
bytes from_hex(const char *digits, uint8_t *room);
/* The next bytes of what is read, which go away from its front; and the number that they say. */
bytes take(bytes *from, size_t count);
uint32_t number(bytes *from, size_t count);

/* vectors.c: every panel of the list in this file is written as the list has it. Answers how many there are. */
int try_vectors(const char *path);
/* vectors.c: the calls answer a panel's length and write its file, into rooms of several lengths. */
void try_panel(const char *name, const given *g, bytes file);
/* refusals.c: every refusal of every call is met. Answers how many refused calls there were. */
int try_refusals(void);
/* named.c: the code points that have a name are written as they should be. */
void try_named(void);
/* named.c: the specification's panel P. */
given panel_p(void);
/* visible.c: a visible size is written as it should be. */
void try_visible(void);
/* forms.c: a number that names no form is refused, and files in the wide form are written as they should be. */
void try_forms(void);

/* main.c: says what is not so, with the name of the panel at which it is not. */
void expect(bool holds, const char *name, const char *what);
/* main.c: room for a file between guard bytes. */
enum { ROOM = 4096 };
uint8_t *lend_room(void);
/* Whether the room begins with these bytes, and all behind and around them is as it was when it was lent. */
bool room_holds(bytes file);
bool same_answer(kahopiru_answer found, kahopiru_answer wanted);

#endif
