/* Builds document 01's cube from lists, refines it twice and prints it before and after each step. */
#include "lavyngo.h"
#include "listing.h"
#include <stdio.h>

/* Room for the cube after two steps, and for scratch. */
enum { POINTS = 98, EDGES = 192, FACES = 96 };
LAVYNGO_TABLES(mesh, POINTS, EDGES, FACES);
LAVYNGO_TABLES(scratch, POINTS, EDGES, FACES);

/* The number of elements of an array. */
#define LENGTH(array) (sizeof(array) / sizeof((array)[0]))

static size_t counts[3];

static void print_stage(int stage) {
    printf("[stage %d]\n", stage);
    print_listing(mesh.positions, mesh.points, mesh.edges, mesh.intervals, mesh.faces, counts);
}

static uint32_t build_cube(void) {
    double coordinates[LAVYNGO_POSITION * 8];
    for (int k = 0; k < 8; k++)
        for (int axis = 0; axis < 3; axis++) coordinates[LAVYNGO_POSITION * k + axis] = k >> axis & 1 ? 1 : -1;
    /* Each face has four sides of one listed point; a face that goes round 0 2 3 1 lists 2, 3, 1, 0. */
    const uint32_t listed[24] = {2, 3, 1, 0, 5, 7, 6, 4, 1, 5, 4, 0, 6, 7, 3, 2, 4, 6, 2, 0, 3, 7, 5, 1};
    uint32_t sides[24];
    double beside[24];
    for (int k = 0; k < 24; k++) sides[k] = 1, beside[k] = 1.0;
    return lavyngo_tables_build(coordinates, LENGTH(coordinates), sides, LENGTH(sides), listed, LENGTH(listed), beside,
                                LENGTH(beside), &mesh, counts);
}

static uint32_t step(void) {
    uint32_t order[FACES];
    for (uint32_t f = 0; f < counts[LAVYNGO_FACES]; f++) order[f] = f;
    return lavyngo_tables_step(&mesh, counts, order, counts[LAVYNGO_FACES], &scratch);
}

int main(void) {
    if (lavyngo_version() != LAVYNGO_VERSION) return fputs("the library is of another version than its header\n", stderr), 1;
    if (!lavyngo_numbers_fit()) return fputs("this program is not run with the numbers of binary64\n", stderr), 1;
    uint32_t answer = build_cube();
    for (int stage = 0; answer == LAVYNGO_ACCEPTED && stage < 3; stage++) {
        print_stage(stage);
        if (stage < 2) answer = step();
    }
    if (answer != LAVYNGO_ACCEPTED) printf("[refused %" PRIu32 "]\n", answer), fprintf(stderr, "%s\n", lavyngo_ground_words(answer));
    return answer == LAVYNGO_ACCEPTED ? 0 : 1;
}
