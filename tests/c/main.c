/*
 * main LIST: writes every panel of the list of upstream's files, panels with a visible size, and panels in the wide
 * form, and meets every refusal in either form, as a caller in C does, with the archive's own calls and with those over
 * parts. Prints what is not so and ends with 1, or prints one line and ends with 0.
 */
#include "trial.h"

#include <stdio.h>
#include <string.h>

const calls *by;
static int failures = 0;

void expect(bool holds, const char *name, const char *what) {
    if (!holds) {
        fprintf(stderr, "c: %s, %s: not so: %s\n", name, by->name, what);
        failures++;
    }
}

enum { GUARD = 64 };
static uint8_t guarded[GUARD + ROOM + GUARD];

/* What stands at each place before a call; neighbours differ, so that a shift shows. */
static uint8_t mark(size_t place) {
    return (uint8_t)(place * 7 + 3);
}

uint8_t *lend_room(void) {
    for (size_t i = 0; i < sizeof guarded; i++)
        guarded[i] = mark(i);
    return guarded + GUARD;
}

bool room_holds(bytes file) {
    for (size_t i = 0; i < sizeof guarded; i++) {
        bool within = i >= GUARD && i - GUARD < file.count;
        if (guarded[i] != (within ? file.at[i - GUARD] : mark(i)))
            return false;
    }
    return true;
}

bool same_answer(kahopiru_answer found, kahopiru_answer wanted) {
    return found.refusal == wanted.refusal && found.length == wanted.length;
}

int main(int count, char **words) {
    if (count != 2) {
        fprintf(stderr, "usage: %s LIST\n", words[0]);
        return 2;
    }
    int panels = 0, refused = 0;
    for (by = roads; by < roads + ROADS; by++) {
        refused += try_refusals();
        try_forms();
        if (by->form != KAHOPIRU_ORDINARY)
            continue;
        panels += try_vectors(words[1]);
        try_named();
        try_visible();
    }
    if (failures)
        return 1;
    printf("c: by the header's names, %d panels are written as they should be, and %d calls refused\n", panels, refused);
    return 0;
}
