// Times the audit and the depth finder on a torus of 256 by 256 squares: 65,536 points, 131,072 edges, 65,536 faces, the most that a
// step may leave. First with its rows in the order of the squares, then as two steps leave it from 64 by 64 squares that stand in
// random order, with the faces visited in random orders: neighbours stand far apart in the tables then.
#include "lavyngo.h"
#include <stdbool.h>
#include <stdio.h>
#include <stdlib.h>
#include <time.h>

enum { N = 256, P = N * N, E = 2 * P, F = P };
static double positions[3 * P], intervals[E];
static uint32_t points[3 * P], edges[8 * E], faces[5 * F];
static size_t counts[3] = {P, E, F};

// The squares that two steps make the torus of, and scratch for the steps.
enum { SIDE = N / 4, COARSE = SIDE * SIDE };
static double coordinates[3 * COARSE], beside[4 * COARSE], newpositions[3 * P], newintervals[E];
static uint32_t sides[4 * COARSE], listed[4 * COARSE], order[F], newpoints[3 * P], newedges[8 * E], newfaces[5 * F];

// The point, the edge to the right of it, the edge upwards and the square right and above of it.
static uint32_t at(int x, int y) { return (uint32_t)(((y + N) % N) * N + (x + N) % N); }
static uint32_t across(int x, int y) { return at(x, y); }
static uint32_t up(int x, int y) { return P + at(x, y); }

static void put(uint32_t e, uint32_t origin, uint32_t dest, uint32_t left, uint32_t right, uint32_t left_cw, uint32_t left_acw,
                uint32_t right_cw, uint32_t right_acw) {
    uint32_t words[8] = {origin, dest, left, right, left_cw, left_acw, right_cw, right_acw};
    for (int k = 0; k < 8; k++) edges[8 * e + k] = words[k];
    intervals[e] = 1.0;
}

static bool is_closed(void) {
    return lavyngo_audit(positions, 3 * P, points, 3 * P, edges, 8 * E, intervals, E, faces, 5 * F, counts) == 0;
}

// No edge crosses a depth above all points, so that the finder looks at every edge.
static bool is_nowhere(void) {
    size_t edge;
    return lavyngo_find_depth(positions, 3 * P, points, 3 * P, edges, 8 * E, intervals, E, faces, 5 * F, counts, 1e9, &edge)
           == LAVYNGO_NOWHERE;
}

// The first n numbers in random order, the same in every run.
static void shuffle(uint32_t *numbers, size_t n) {
    static uint64_t state = 1;
    for (size_t i = 0; i < n; i++) numbers[i] = (uint32_t)i;
    for (size_t i = n; i > 1; i--) {
        state = state * 6364136223846793005u + 1442695040888963407u;
        size_t j = (size_t)(state >> 33) % i;
        uint32_t kept = numbers[i - 1];
        numbers[i - 1] = numbers[j];
        numbers[j] = kept;
    }
}

// Refines the mesh once, its faces in random order.
static bool is_refined(void) {
    shuffle(order, counts[LAVYNGO_FACES]);
    return lavyngo_step(positions, 3 * P, points, 3 * P, edges, 8 * E, intervals, E, faces, 5 * F, counts, order, counts[LAVYNGO_FACES],
                        newpositions, 3 * P, newpoints, 3 * P, newedges, 8 * E, newintervals, E, newfaces, 5 * F) == LAVYNGO_ACCEPTED;
}

// Builds the torus of SIDE by SIDE squares, which are listed in random order, and refines it twice.
static bool is_shuffled(void) {
    shuffle(order, COARSE);
    for (uint32_t k = 0; k < COARSE; k++) {
        uint32_t x = order[k] % SIDE, y = order[k] / SIDE, right = (x + 1) % SIDE, above = (y + 1) % SIDE;
        uint32_t corners[4] = {y * SIDE + x, y * SIDE + right, above * SIDE + right, above * SIDE + x};
        for (uint32_t i = 0; i < 4; i++) sides[4 * k + i] = 1, listed[4 * k + i] = corners[i], beside[4 * k + i] = 1.0;
        for (uint32_t i = 0; i < 3; i++) coordinates[3 * order[k] + i] = x + y * i;
    }
    return lavyngo_build(coordinates, 3 * COARSE, sides, 4 * COARSE, listed, 4 * COARSE, beside, 4 * COARSE, positions, 3 * P, points,
                         3 * P, edges, 8 * E, intervals, E, faces, 5 * F, counts) == LAVYNGO_ACCEPTED
           && is_refined() && is_refined();
}

static double milliseconds(void) {
    struct timespec t;
    clock_gettime(CLOCK_MONOTONIC, &t);
    return t.tv_sec * 1e3 + t.tv_nsec / 1e6;
}

// Makes so many calls, which must all be true, and prints their times.
static bool timed(const char *name, bool (*call)(void), int runs) {
    double least = 1e9, sum = 0;
    bool all = true;
    for (int i = 0; i < runs; i++) {
        double t = milliseconds();
        all &= call();
        t = milliseconds() - t;
        sum += t;
        if (t < least) least = t;
    }
    printf("%s: %d runs: least %.2f ms, mean %.2f ms\n", name, runs, least, sum / runs);
    return all;
}

int main(int argc, char **argv) {
    int runs = argc > 1 ? atoi(argv[1]) : 100;
    for (int y = 0; y < N; y++)
        for (int x = 0; x < N; x++) {
            uint32_t p = at(x, y);
            for (int k = 0; k < 3; k++) positions[3 * p + k] = x + y * k;
            points[3 * p] = 4, points[3 * p + 1] = up(x, y), points[3 * p + 2] = 0;
            put(across(x, y), p, at(x + 1, y), at(x, y), at(x, y - 1), up(x, y), up(x + 1, y), up(x + 1, y - 1), up(x, y - 1));
            put(up(x, y), p, at(x, y + 1), at(x - 1, y), at(x, y), across(x - 1, y), across(x - 1, y + 1), across(x, y + 1), across(x, y));
            faces[5 * p] = across(x, y);
            faces[5 * p + 1] = p, faces[5 * p + 2] = at(x + 1, y), faces[5 * p + 3] = at(x + 1, y + 1), faces[5 * p + 4] = at(x, y + 1);
        }
    bool closed = timed("the audit", is_closed, runs);
    bool nowhere = timed("the depth finder, no edge crossing", is_nowhere, runs);
    edges[8 * (E - 1) + 4] ^= 1;
    bool spoilt = is_closed();
    bool shuffled = is_shuffled() && timed("the audit, rows in random order", is_closed, runs);
    printf("closed %d, nowhere %d, spoilt %d, shuffled %d\n", closed, nowhere, spoilt, shuffled);
    return closed && nowhere && !spoilt && shuffled ? 0 : 1;
}
