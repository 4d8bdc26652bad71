/* The least time of auditing a dense mesh, of a damaged one, and of building it from its lists, where M * N is at most 8,192:
   every one of M points is joined to every one of N, by squares.

     dense M N [ROUNDS]      M and N even, M * N at most 131,072

   About an even point the edges go round by their numbers, about an odd one the other way: so all faces are squares. */
#define _POSIX_C_SOURCE 200809L
#include "lavyngo.h"
#include <stdio.h>
#include <stdlib.h>
#include <time.h>

enum { EDGES = 131072, POINTS = EDGES, FACES = EDGES, MOST_POINTS = 4096, MOST_LISTED = 16384 };
enum { ORIGIN, DEST, LEFT, RIGHT, LEFT_CW, LEFT_ACW, RIGHT_CW, RIGHT_ACW, WORDS };
static double positions[3 * POINTS], intervals[EDGES];
static uint32_t points[3 * POINTS], edges[WORDS * EDGES], faces[5 * FACES];
static size_t counts[3];
LAVYNGO_TABLES(built, MOST_POINTS, MOST_LISTED, MOST_LISTED);
static double beside[MOST_LISTED];
static uint32_t sides[MOST_LISTED], listed[MOST_LISTED];
static size_t places;
static int m, n;

static uint32_t edge(int i, int j) { return (uint32_t)((i + m) % m * n + (j + n) % n); }

static void put_edges(void) {
    for (int i = 0; i < m; i++)
        for (int j = 0; j < n; j++) {
            uint32_t *row = edges + WORDS * edge(i, j);
            const int a = i % 2 ? -1 : 1, b = j % 2 ? -1 : 1;
            row[ORIGIN] = (uint32_t)i, row[DEST] = (uint32_t)(m + j), row[LEFT] = row[RIGHT] = LAVYNGO_NONE;
            row[LEFT_CW] = edge(i, j + a), row[RIGHT_ACW] = edge(i, j - a);
            row[RIGHT_CW] = edge(i + b, j), row[LEFT_ACW] = edge(i - b, j);
            intervals[edge(i, j)] = 1;
        }
}

/* Goes round each face that is not numbered yet: along an edge on its left, back along the next on its right. */
static void put_faces(void) {
    for (uint32_t e = 0; e < counts[1]; e++)
        for (int side = 0; side < 2; side++) {
            if (edges[WORDS * e + LEFT + side] != LAVYNGO_NONE) continue;
            uint32_t at = e;
            int s = side;
            do {
                edges[WORDS * at + LEFT + s] = (uint32_t)counts[2];
                at = edges[WORDS * at + (s ? RIGHT_ACW : LEFT_ACW)], s = !s;
            } while (at != e || s != side);
            uint32_t *row = faces + 5 * counts[2]++;
            row[0] = e, row[1] = row[2] = row[3] = row[4] = LAVYNGO_NONE;
        }
}

static void put_points(void) {
    for (int p = 0; p < m + n; p++) {
        positions[3 * p] = p, positions[3 * p + 1] = p % 7, positions[3 * p + 2] = p % 13;
        points[3 * p] = (uint32_t)(p < m ? n : m), points[3 * p + 1] = p < m ? edge(p, 0) : edge(0, p - m);
    }
}

static uint32_t audit(void) {
    return lavyngo_audit(positions, 3 * POINTS, points, 3 * POINTS, edges, WORDS * EDGES, intervals, EDGES, faces, 5 * FACES, counts);
}

static double now(void) {
    struct timespec t;
    clock_gettime(CLOCK_MONOTONIC, &t);
    return t.tv_sec * 1e9 + t.tv_nsec;
}

/* Lists the points of each face as they follow on its left, the first of them behind the start edge. */
static void put_lists(void) {
    for (size_t f = 0; f < counts[2]; f++) {
        const uint32_t first = faces[5 * f];
        uint32_t at = first;
        int s = edges[WORDS * at + LEFT] != f;
        for (int i = 0; i < 4; i++, places++) {
            listed[places] = edges[WORDS * at + (s ? ORIGIN : DEST)], sides[places] = 1, beside[places] = 1;
            at = edges[WORDS * at + (s ? RIGHT_ACW : LEFT_ACW)], s = !s;
        }
    }
}

/* The least time of building, in ns for a listed point; 0 past the limits of building. */
static double build(int rounds) {
    if ((size_t)m * n > MOST_LISTED / 2) return 0;
    put_lists();
    double least = 1e18;
    for (; rounds > 0; rounds--) {
        size_t made[3];
        const double began = now();
        const uint32_t answer =
            lavyngo_tables_build(positions, 3 * counts[0], sides, places, listed, places, beside, places, &built, made);
        const double took = now() - began;
        if (answer || made[1] != counts[1] || made[2] != counts[2]) printf("refused %u\n", answer), exit(1);
        if (took < least) least = took;
    }
    return least / places;
}

int main(int argc, char **argv) {
    m = argc > 2 ? atoi(argv[1]) : 0, n = argc > 2 ? atoi(argv[2]) : 0;
    if (m < 2 || n < 2 || m % 2 || n % 2 || m > EDGES / n) return printf("dense M N [ROUNDS], both even\n"), 2;
    counts[0] = (size_t)(m + n), counts[1] = (size_t)m * n;
    put_edges(), put_faces(), put_points();
    const int rounds = argc > 3 ? atoi(argv[3]) : 1;
    double least = 1e18;
    for (int r = rounds; r > 0; r--) {
        const double began = now();
        const uint32_t answer = audit();
        const double took = now() - began;
        if (answer) return printf("refused %u\n", answer), 1;
        if (took < least) least = took;
    }
    const double building = build(rounds);
    edges[WORDS * (counts[1] - 1) + DEST] = (uint32_t)m;
    printf("%d by %d: %zu edges, %.1f ns an edge; damaged: %u", m, n, counts[1], least / counts[1], audit());
    if (building) printf("; building: %.1f ns a listed point", building);
    printf("\n");
    return 0;
}
