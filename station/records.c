/* Reads a mesh text, builds it through lavyngo.h both from lists and from the text, refines it as often as is asked, and
   prints every field of every record after each stage, as the oracle prints what the Rust has: records K < TEXT
   A refused stage is a line [refused N]. The header's declarations are tested by this: nothing else compares them with the
   library. */
#include "lavyngo.h"
#include "listing.h"
#include <stdbool.h>
#include <stdio.h>
#include <stdlib.h>
#include <string.h>

enum { TEXT = 1 << 20, POINTS = 20000, EDGES = 40000, FACES = 20000, SPARE = 3 };

static uint8_t text[TEXT];
static size_t text_length;

/* What the text lists, read without any care: it is known to be of the form. */
static double coordinates[3 * LAVYNGO_MOST_POINTS], beside[LAVYNGO_MOST_LISTED];
static uint32_t sides[4 * LAVYNGO_MOST_FACES], firsts[4 * LAVYNGO_MOST_FACES], listed[LAVYNGO_MOST_LISTED];
static size_t nc, ns, nl;

struct tables {
    double positions[LAVYNGO_POSITION * POINTS], intervals[LAVYNGO_INTERVAL * EDGES];
    uint32_t points[LAVYNGO_POINT * POINTS], edges[LAVYNGO_EDGE * EDGES], faces[LAVYNGO_FACE * FACES];
};
static struct tables mesh, other, scratch;
static size_t counts[3], other_counts[3];

/* A pointer and its number of elements, for so many rows and some elements more. */
#define LENT(table, width, n) (table), (size_t)((width) * (n) + SPARE)

static double number_at(const char *at) {
    char digits[17] = {0};
    memcpy(digits, at, 16);
    uint64_t bits = strtoull(digits, NULL, 16);
    double x;
    memcpy(&x, &bits, sizeof x);
    return x;
}

/* The listed points of a side that begins at its first point; the place after the side. */
static const char *read_side(const char *at) {
    uint32_t n = 0;
    firsts[ns] = (uint32_t)strtoul(at, (char **)&at, 10);
    while (*at != ']') {
        if (*at++ != '[') continue;
        listed[nl] = (uint32_t)strtoul(at, (char **)&at, 10);
        beside[nl++] = number_at(at + 1);
        at += 18;
        n++;
    }
    sides[ns++] = n;
    return at + 1;
}

static void read_lists(void) {
    for (const char *line = (const char *)text; line && *line; line = strchr(line, '\n'), line += line != NULL) {
        if (strncmp(line, "[point ", 7) == 0)
            for (int axis = 0; axis < 3; axis++) coordinates[nc++] = number_at(line + 7 + 17 * axis);
        if (strncmp(line, "[face ", 6) == 0) {
            const char *at = line + 6;
            for (int side = 0; side < 4; side++) at = read_side(at + 1) + 1;
        }
    }
}

static uint32_t build_lists(struct tables *t, size_t c[3]) {
    size_t np = nc / 3, nf = ns / 4;
    if (strncmp((const char *)text, "[mesh 2]", 8) == 0)
        return lavyngo_build_2(coordinates, nc, sides, ns, firsts, ns, listed, nl, beside, nl,
                               LENT(t->positions, LAVYNGO_POSITION, np), LENT(t->points, LAVYNGO_POINT, np),
                               LENT(t->edges, LAVYNGO_EDGE, nl), LENT(t->intervals, LAVYNGO_INTERVAL, nl),
                               LENT(t->faces, LAVYNGO_FACE, nf), c);
    return lavyngo_build(coordinates, nc, sides, ns, listed, nl, beside, nl, LENT(t->positions, LAVYNGO_POSITION, np),
                         LENT(t->points, LAVYNGO_POINT, np), LENT(t->edges, LAVYNGO_EDGE, nl),
                         LENT(t->intervals, LAVYNGO_INTERVAL, nl), LENT(t->faces, LAVYNGO_FACE, nf), c);
}

static uint32_t build_text(struct tables *t, size_t c[3]) {
    size_t np = nc / 3, nf = ns / 4;
    return lavyngo_build_text(text, text_length, LENT(t->positions, LAVYNGO_POSITION, np), LENT(t->points, LAVYNGO_POINT, np),
                              LENT(t->edges, LAVYNGO_EDGE, nl), LENT(t->intervals, LAVYNGO_INTERVAL, nl),
                              LENT(t->faces, LAVYNGO_FACE, nf), c);
}

static uint32_t audit(const struct tables *t, const size_t c[3]) {
    return lavyngo_audit(LENT(t->positions, LAVYNGO_POSITION, c[LAVYNGO_POINTS]), LENT(t->points, LAVYNGO_POINT, c[LAVYNGO_POINTS]),
                         LENT(t->edges, LAVYNGO_EDGE, c[LAVYNGO_EDGES]), LENT(t->intervals, LAVYNGO_INTERVAL, c[LAVYNGO_EDGES]),
                         LENT(t->faces, LAVYNGO_FACE, c[LAVYNGO_FACES]), c);
}

static uint32_t step(void) {
    static uint32_t order[FACES];
    for (uint32_t f = 0; f < counts[LAVYNGO_FACES]; f++) order[f] = f;
    size_t np = counts[LAVYNGO_POINTS] + counts[LAVYNGO_EDGES] + counts[LAVYNGO_FACES];
    size_t ne = 4 * counts[LAVYNGO_EDGES], nf = 2 * counts[LAVYNGO_EDGES];
    return lavyngo_step(LENT(mesh.positions, LAVYNGO_POSITION, np), LENT(mesh.points, LAVYNGO_POINT, np),
                        LENT(mesh.edges, LAVYNGO_EDGE, ne), LENT(mesh.intervals, LAVYNGO_INTERVAL, ne),
                        LENT(mesh.faces, LAVYNGO_FACE, nf), counts, order, counts[LAVYNGO_FACES],
                        LENT(scratch.positions, LAVYNGO_POSITION, np), LENT(scratch.points, LAVYNGO_POINT, np),
                        LENT(scratch.edges, LAVYNGO_EDGE, ne), LENT(scratch.intervals, LAVYNGO_INTERVAL, ne),
                        LENT(scratch.faces, LAVYNGO_FACE, nf));
}

static int fail(const char *what) {
    printf("FAILED: %s\n", what);
    return 1;
}

int main(int argc, char **argv) {
    int steps = argc > 1 ? atoi(argv[1]) : 0;
    text_length = fread(text, 1, TEXT - 1, stdin);
    read_lists();
    uint32_t answer = build_lists(&mesh, counts);
    if (build_text(&other, other_counts) != answer) return fail("lists and text are answered differently");
    if (memcmp(&mesh, &other, sizeof mesh) != 0) return fail("lists and text leave different tables");
    if (memcmp(counts, other_counts, sizeof counts) != 0) return fail("lists and text leave different counts");
    for (int stage = 0; stage <= steps; stage++) {
        if (stage > 0) answer = step();
        printf("[stage %d]\n", stage);
        if (answer != LAVYNGO_ACCEPTED) {
            printf("[refused %" PRIu32 "]\n", answer);
            return 0;
        }
        if (audit(&mesh, counts) != LAVYNGO_ACCEPTED) return fail("the audit refuses what was accepted");
        print_listing(mesh.positions, mesh.points, mesh.edges, mesh.intervals, mesh.faces, counts);
    }
    return 0;
}
