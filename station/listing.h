/* A mesh as the listing `[mesh 3]`: a line for each point, edge and face, every word by its name in lavyngo.h. */
#ifndef LISTING_H
#define LISTING_H

#include "lavyngo.h"
#include <inttypes.h>
#include <stdio.h>
#include <string.h>

static inline void print_number(double x, const char *after) {
    uint64_t bits;
    memcpy(&bits, &x, sizeof bits);
    printf("%016" PRIx64 "%s", bits, after);
}

static inline void print_word(uint32_t word, const char *after) { printf("%" PRIu32 "%s", word, after); }

static inline void print_listing(const double *positions, const uint32_t *points, const uint32_t *edges, const double *intervals,
                                 const uint32_t *faces, const size_t counts[3]) {
    printf("[mesh 3]\n");
    for (size_t p = 0; p < counts[LAVYNGO_POINTS]; p++) {
        const double *place = positions + LAVYNGO_POSITION * p;
        const uint32_t *point = points + LAVYNGO_POINT * p;
        printf("[point ");
        print_number(place[LAVYNGO_X], " ");
        print_number(place[LAVYNGO_Y], " ");
        print_number(place[LAVYNGO_Z], " ");
        print_word(point[LAVYNGO_VALENCE], " ");
        print_word(point[LAVYNGO_POINT_START], " ");
        print_word(point[LAVYNGO_MARK], "]\n");
    }
    for (size_t e = 0; e < counts[LAVYNGO_EDGES]; e++) {
        const uint32_t *edge = edges + LAVYNGO_EDGE * e;
        printf("[edge ");
        print_word(edge[LAVYNGO_ORIGIN], " ");
        print_word(edge[LAVYNGO_DESTINATION], " ");
        print_word(edge[LAVYNGO_LEFT_FACE], " ");
        print_word(edge[LAVYNGO_RIGHT_FACE], " ");
        print_word(edge[LAVYNGO_LEFT_CW], " ");
        print_word(edge[LAVYNGO_LEFT_ACW], " ");
        print_word(edge[LAVYNGO_RIGHT_CW], " ");
        print_word(edge[LAVYNGO_RIGHT_ACW], " ");
        print_number(intervals[LAVYNGO_INTERVAL * e], "]\n");
    }
    for (size_t f = 0; f < counts[LAVYNGO_FACES]; f++) {
        const uint32_t *face = faces + LAVYNGO_FACE * f;
        printf("[face ");
        print_word(face[LAVYNGO_FACE_START], " ");
        for (size_t k = 0; k < 4; k++) print_word(face[LAVYNGO_CORNER + k], k < 3 ? " " : "]\n");
    }
    printf("[end]\n");
}

#endif
