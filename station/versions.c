/* The least time of building the torus of 64 by 64 by either version, and of refining it by either edition:

     versions build | build2 | step | step2 [ROUNDS]

   Compiled with a header from before version 2 and the second edition it has build and step alone, so that one library can be
   timed beside another. */
#define _POSIX_C_SOURCE 200809L
#include "lavyngo.h"
#include <stdio.h>
#include <stdlib.h>
#include <string.h>
#include <time.h>

enum { SIDE = 64, POINTS = SIDE * SIDE, FACES = POINTS, EDGES = 2 * POINTS, LISTED = 4 * FACES };
LAVYNGO_TABLES(mesh, POINTS + EDGES + FACES, 4 * EDGES, 2 * EDGES);
LAVYNGO_TABLES(scratch, POINTS + EDGES + FACES, 4 * EDGES, 2 * EDGES);

static double coordinates[LAVYNGO_POSITION * POINTS], beside[LISTED];
static uint32_t sides[LISTED], firsts[LISTED], listed[LISTED], order[FACES];
static size_t counts[3];

static uint32_t at(int i, int j) { return (uint32_t)(i % SIDE * SIDE + j % SIDE); }

static void fill(void) {
    for (int p = 0; p < POINTS; p++) {
        double *place = coordinates + LAVYNGO_POSITION * p;
        place[LAVYNGO_X] = p % SIDE, place[LAVYNGO_Y] = p / SIDE, place[LAVYNGO_Z] = p * 7 % 13;
    }
    for (int f = 0; f < FACES; f++) {
        const int i = f / SIDE, j = f % SIDE;
        const uint32_t corners[4] = {at(i, j + 1), at(i + 1, j + 1), at(i + 1, j), at(i, j)};
        for (int k = 0; k < 4; k++) {
            sides[4 * f + k] = 1, beside[4 * f + k] = 1;
            listed[4 * f + k] = corners[k], firsts[4 * f + k] = corners[(k + 3) % 4];
        }
        order[f] = (uint32_t)f;
    }
}

static uint32_t build(const char *what) {
#ifdef LAVYNGO_VERSION
    if (!strcmp(what, "build2"))
        return lavyngo_tables_build_2(coordinates, LAVYNGO_POSITION * POINTS, sides, LISTED, firsts, LISTED, listed, LISTED, beside,
                                      LISTED, &mesh, counts);
#endif
    (void)what, (void)firsts;
    return lavyngo_tables_build(coordinates, LAVYNGO_POSITION * POINTS, sides, LISTED, listed, LISTED, beside, LISTED, &mesh, counts);
}

static uint32_t step(const char *what) {
#ifdef LAVYNGO_VERSION
    if (!strcmp(what, "step2")) return lavyngo_tables_step_published(&mesh, counts, order, FACES, &scratch);
#endif
    (void)what;
    return lavyngo_tables_step(&mesh, counts, order, FACES, &scratch);
}

static double now(void) {
    struct timespec t;
    clock_gettime(CLOCK_MONOTONIC, &t);
    return t.tv_sec * 1e6 + t.tv_nsec / 1e3;
}

int main(int argc, char **argv) {
    const char *what = argc > 1 ? argv[1] : "step";
    const int rounds = argc > 2 ? atoi(argv[2]) : 1, refines = !strncmp(what, "step", 4);
    double least = 1e18;
    fill();
    for (int r = 0; r < rounds; r++) {
        double began = now();
        uint32_t answer = build(what);
        if (refines && !answer) began = now(), answer = step(what);
        const double took = now() - began;
        if (answer) return printf("refused %u\n", answer), 1;
        if (took < least) least = took;
    }
    printf("%s %.1f us\n", what, least);
    return 0;
}
