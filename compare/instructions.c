/* Makes one call, or none, of a block's indices or of adding it to a table; `compare/instructions` counts what the call takes.
 *   instructions BLOCK indices|add 0|1 */
#include "tteuyomal.h"
#include <stdlib.h>
#include <string.h>

static uint8_t bonds[384];
static size_t atoms, length;

static void bond(size_t a, size_t b) {
    bonds[length++] = (uint8_t)a;
    bonds[length++] = (uint8_t)b;
}

static void ring(size_t n) {
    for (size_t i = 1; i <= n; i++) bond(i, i % n + 1);
    atoms = n;
}

static void path(size_t n) {
    for (size_t i = 1; i < n; i++) bond(i, i + 1);
    atoms = n;
}

/* 8 rows and 8 columns, each a ring */
static void torus(void) {
    for (size_t i = 0; i < 8; i++)
        for (size_t j = 0; j < 8; j++) {
            bond(8 * i + j + 1, 8 * i + (j + 1) % 8 + 1);
            bond(8 * i + j + 1, 8 * ((i + 1) % 8) + j + 1);
        }
    atoms = 64;
}

/* the corners of a cube of six dimensions */
static void cube(void) {
    for (size_t i = 0; i < 64; i++)
        for (size_t side = 1; side < 64; side *= 2)
            if (i < (i ^ side)) bond(i + 1, (i ^ side) + 1);
    atoms = 64;
}

int main(int count, char **words) {
    static uint8_t table[TTEUYOMAL_TABLE_BYTES];
    uint64_t fields[6];
    if (count != 4) return 2;
    if (!strcmp(words[1], "ring6")) ring(6);
    else if (!strcmp(words[1], "ring20")) ring(20);
    else if (!strcmp(words[1], "path64")) path(64);
    else if (!strcmp(words[1], "torus")) torus();
    else if (!strcmp(words[1], "cube")) cube();
    else return 2;
    /* seven of a queue's eight places are taken */
    tteuyomal_queue_empty(table, sizeof table);
    for (uint16_t number = 1; number < 8; number++) tteuyomal_queue_add(table, sizeof table, 1, number, 1, bonds, 0);
    if (atoi(words[3]) == 0) return 0;
    if (!strcmp(words[2], "add")) return tteuyomal_queue_add(table, sizeof table, 1, 8, atoms, bonds, length) != 0;
    return tteuyomal_indices(atoms, bonds, length, fields, 6) != 0;
}
