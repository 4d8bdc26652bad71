/* Lavyngo for stations: closed meshes of points, edges and faces in tables that the caller lends, built from lists or from
   a text, audited, refined, asked for an edge at a depth, and handed over as a listing; texts with faces turned round are
   mended, and refused texts explained. The functions are those of libstation.a (`station/library.sh` makes it), for x86-64 Linux.

   Link with: cc program.c target/staticlib/libstation.a

   TABLES
   A mesh stands in five tables, each handed over as a pointer and its number of elements (not of bytes, not of rows).

     positions   double     3 a point: x, y, z
     points      uint32_t   3 words a point: valence, start edge, mark (1 for an extraordinary point, else 0)
     edges       uint32_t   8 words an edge: origin, destination, left face, right face, and its four neighbours
     intervals   double     1 an edge
     faces       uint32_t   5 words a face: start edge, four corners (a point, or LAVYNGO_NONE)

   Rows are numbered from 0. The rows of a kind are as many as all tables of that kind hold whole: 7 words of points are
   2 rows. How many rows a mesh has stands in an array of three counts: points, edges, faces. Rows beyond the counts are
   room, and are not looked at.

   POINTERS
   No pointer may be NULL, also where its number of elements is 0; each must be aligned for its type. Tables that a function
   writes must not overlap each other or anything else that it is handed. Tables that it only reads may be the same.
   The functions keep nothing between calls and may be called from several threads with tables of their own. Nothing is
   allocated; the deepest call takes less than 800 KiB of stack.

   POWER
   The promises are about calls that come back. After a call that was cut off, by lost power say, the tables that it may write
   have any content, and an audit that passes does not make them the mesh that was there before: take them for lost, and build or
   read the mesh again. What a call only reads is as it was. Where tables outlast the power, keep the listing of the mesh.

   ANSWERS
   0 is accepted. Any other number is the ground of the refusal, the first that holds, in this order. "Untouched" and
   "zeroed" say what the lent tables are then: "zeroed" is said of the rows that are counted (building: as many points,
   listed points for edges, and faces as are handed in; scratch: the rows of the mesh after the step). All further rows are
   never touched. The array of counts is written where the answer is 0, and nowhere else. */
#ifndef LAVYNGO_H
#define LAVYNGO_H

#include <stddef.h>
#include <stdint.h>

#ifdef __cplusplus
extern "C" {
#endif

enum lavyngo_answer {
    LAVYNGO_ACCEPTED = 0,
    /* building; tables untouched */
    LAVYNGO_NOT_TEXT = 1,             /* the text is not of the form of mesh texts 1 and 2 */
    LAVYNGO_OVER_COUNTS = 2,          /* over 4,096 points, 4,096 faces or 16,384 listed points, or list lengths disagree */
    LAVYNGO_UNFIT_NUMBER = 3,         /* a number is not finite, or the sign bit of an interval is set */
    LAVYNGO_FEW_ROWS = 4,             /* fewer rows than points, faces, or listed points for edges */
    /* building; tables zeroed */
    LAVYNGO_FACE_SIZE = 10,           /* a face of fewer than 3 or more than 64 listed points */
    LAVYNGO_OUT_OF_RANGE = 11,        /* a listed point that is no point */
    LAVYNGO_POINT_TWICE = 12,         /* a point twice in a face */
    LAVYNGO_FIRST_POINT = 43,         /* version 2: a side's first point is not the point listed last before it */
    LAVYNGO_NON_RECTANGULAR_FACE = 13, /* side sums s0 - s2 + s1 - s3 (version 2: s0 - s2 or s1 - s3) not from -0.000001 to 0.000001 */
    LAVYNGO_EDGE_TRIPLE_FACE = 14,    /* an edge that has two faces already */
    LAVYNGO_SAME_WAY = 15,            /* the second face of an edge runs the same way */
    LAVYNGO_MISSING_FACE = 20,        /* an edge with one face */
    LAVYNGO_NO_EDGE = 21,             /* a point with no edge */
    LAVYNGO_MISSED_EDGE = 22,         /* the walk about a point misses an edge of it */
    /* the audit and the step; tables and scratch untouched */
    LAVYNGO_NOT_CLOSED = 30,          /* the tables with these counts are no closed mesh */
    LAVYNGO_NOT_EACH_FACE_ONCE = 31,  /* the order is not each face once */
    LAVYNGO_NO_ROOM = 32,             /* tables or scratch have fewer rows than the mesh after the step, or it is too large */
    /* the step; tables untouched, scratch zeroed */
    LAVYNGO_NOT_FINITE = 33,          /* a number of the mesh after the step would not be finite */
    /* reading a listing, in the place of 1; tables untouched */
    LAVYNGO_NOT_LISTING = 40,         /* the text is not of the form of the handover listing, text 3 */
    /* the depth finder, which touches nothing; 42 comes before 30, 41 after it */
    LAVYNGO_NOWHERE = 41,             /* no edge crosses the depth */
    LAVYNGO_NOT_FINITE_DEPTH = 42,    /* the depth is not finite */
    /* the mender, after 20; the text untouched */
    LAVYNGO_TWISTED = 44              /* no choice of faces turned round makes all neighbours run opposite ways */
};

/* The version of this header: 1 for document 01, and one more for each request of document 02 that is in it. */
#define LAVYNGO_VERSION 10

/* The version of the library that is linked. A station asks once whether it is that of the header. */
uint32_t lavyngo_version(void);

/* Elements of a row, and the place of each in its row. */
enum {
    LAVYNGO_POSITION = 3, LAVYNGO_X = 0, LAVYNGO_Y = 1, LAVYNGO_Z = 2,
    LAVYNGO_POINT = 3, LAVYNGO_VALENCE = 0, LAVYNGO_POINT_START = 1, LAVYNGO_MARK = 2,
    LAVYNGO_EDGE = 8, LAVYNGO_ORIGIN = 0, LAVYNGO_DESTINATION = 1, LAVYNGO_LEFT_FACE = 2, LAVYNGO_RIGHT_FACE = 3,
    LAVYNGO_LEFT_CW = 4, LAVYNGO_LEFT_ACW = 5, LAVYNGO_RIGHT_CW = 6, LAVYNGO_RIGHT_ACW = 7,
    LAVYNGO_INTERVAL = 1,
    LAVYNGO_FACE = 5, LAVYNGO_FACE_START = 0, LAVYNGO_CORNER = 1 /* corners 0 to 3 stand at 1 to 4 */
};

/* The places of the array of counts. */
enum { LAVYNGO_POINTS = 0, LAVYNGO_EDGES = 1, LAVYNGO_FACES = 2 };

/* A corner that is no point. */
#define LAVYNGO_NONE UINT32_C(4294967295)

/* The most that building takes, and the most that a step may leave. */
enum {
    LAVYNGO_MOST_POINTS = 4096, LAVYNGO_MOST_FACES = 4096, LAVYNGO_MOST_LISTED = 16384,
    LAVYNGO_CEILING_POINTS = 65536, LAVYNGO_CEILING_EDGES = 131072, LAVYNGO_CEILING_FACES = 65536
};

/* Builds a mesh from lists, in tables with rows for as many points, faces and, for the edges, listed points.
     coordinates  3 a point: x, y, z
     sides        4 a face: how many listed points each of its four sides has
     listed       the points of the faces in turn, side by side: edge i of a face goes from its point i to point i + 1,
                  round to the start
     beside       the interval beside each listed point: edge i takes the one beside point i; an edge that exists already
                  keeps its own
   Answers 0, 2 to 4, 10 to 22. A mesh that is accepted has half as many edges as listed points; the edge rows from there
   to the number of listed points are zeroed. */
uint32_t lavyngo_build(
    const double *coordinates, size_t coordinates_length, const uint32_t *sides, size_t sides_length,
    const uint32_t *listed, size_t listed_length, const double *beside, size_t beside_length,
    double *positions, size_t positions_length, uint32_t *points, size_t points_length,
    uint32_t *edges, size_t edges_length, double *intervals, size_t intervals_length,
    uint32_t *faces, size_t faces_length, size_t counts[3]);

/* Builds a mesh from lists of version 2: as lavyngo_build, with three differences.
     firsts       4 a face: the first point of each side. It must be the point that the face lists last before the side,
                  going round; over empty sides, the nearest one back; for an empty side too. Another number of them is 2
     beside       edge i takes the interval beside point i + 1, and the last edge the one beside point 0
     13           s0 - s2 and s1 - s3 must each be from -0.000001 to 0.000001
   Answers 0, 2 to 4, 10 to 22, and 43 after 12 and before 13. */
uint32_t lavyngo_build_2(
    const double *coordinates, size_t coordinates_length, const uint32_t *sides, size_t sides_length,
    const uint32_t *firsts, size_t firsts_length,
    const uint32_t *listed, size_t listed_length, const double *beside, size_t beside_length,
    double *positions, size_t positions_length, uint32_t *points, size_t points_length,
    uint32_t *edges, size_t edges_length, double *intervals, size_t intervals_length,
    uint32_t *faces, size_t faces_length, size_t counts[3]);

/* Builds a mesh from mesh text 1 or 2, as its head says: as lavyngo_build does from its lists, or lavyngo_build_2.
   Answers 0, 1 to 4, 10 to 22, 43. */
uint32_t lavyngo_build_text(
    const uint8_t *text, size_t text_length,
    double *positions, size_t positions_length, uint32_t *points, size_t points_length,
    uint32_t *edges, size_t edges_length, double *intervals, size_t intervals_length,
    uint32_t *faces, size_t faces_length, size_t counts[3]);

/* Mends mesh text 2 in place where some faces are listed the other way round: it reverses whole faces, the sides in opposite
   order, each side backwards, each interval staying on its pair of points, so that all neighbours run opposite ways. In every
   part, which is faces joined through shared edges, the lowest-numbered face stays; with that there is one choice at most. The
   text keeps its number of bytes, and a text that needs nothing is left as it is.
   Answers 0, 1 (not of the form, or a text of version 1), 2 (over the limits of building), 3, face by face 10, 11, 12, 43 and 14
   for its edges, whichever way the faces run; then 20, and 44 if no choice works: the first that holds in this order. Writes
   nothing where the answer is not 0. Building a text that was mended can still meet 4, 13, 21 and 22. */
uint32_t lavyngo_mend_text(uint8_t *text, size_t text_length);

/* What becomes of a mesh text, and where it is refused: the answer of lavyngo_build_text in tables with rows to spare, so never 4, and
   in `where` the line (from 1), the face and the edge of the face (from 0) of the check that is met: the first in the order of the
   grounds. 10 to 13 and 43 have a line and a face, 14 and 15 an edge too; what there is none of is SIZE_MAX. No tables are needed. */
uint32_t lavyngo_explain_text(const uint8_t *text, size_t text_length, size_t where[3]);

/* Whether tables of any content, with counts of any size, are a closed mesh: 0, or 30 if they are not. Writes nothing. */
uint32_t lavyngo_audit(
    const double *positions, size_t positions_length, const uint32_t *points, size_t points_length,
    const uint32_t *edges, size_t edges_length, const double *intervals, size_t intervals_length,
    const uint32_t *faces, size_t faces_length, const size_t counts[3]);

/* Refines the mesh in the tables once. V, E, F become V + E + F, 4 E, 2 E; tables and scratch must have rows for these.
     counts       those before the step; those after it, where it is accepted
     order        the faces in the order in which they are visited, each once: 0, 1, 2, .. is numbered order
     newpositions, newpoints, newedges, newintervals, newfaces    scratch: tables of positions, points, edges, intervals and faces
   Answers 0, 30 to 33. Scratch is zeroed after an accepted step and after 33. */
uint32_t lavyngo_step(
    double *positions, size_t positions_length, uint32_t *points, size_t points_length,
    uint32_t *edges, size_t edges_length, double *intervals, size_t intervals_length,
    uint32_t *faces, size_t faces_length, size_t counts[3], const uint32_t *order, size_t order_length,
    double *newpositions, size_t newpositions_length, uint32_t *newpoints, size_t newpoints_length,
    uint32_t *newedges, size_t newedges_length, double *newintervals, size_t newintervals_length,
    uint32_t *newfaces, size_t newfaces_length);

/* The same step by the published position rule of 1998 (document 02, section 5): m of equation 15 weighs at old points where
   lavyngo_step weighs edge points, and a joining edge gets a quarter of the sum of the two whole intervals as they stood before the
   step; start edges of points do not go by the visiting order (sections 6 and 7). Parameters, answers and what is left are those of
   lavyngo_step; steps of the two kinds may follow each other. */
uint32_t lavyngo_step_published(
    double *positions, size_t positions_length, uint32_t *points, size_t points_length,
    uint32_t *edges, size_t edges_length, double *intervals, size_t intervals_length,
    uint32_t *faces, size_t faces_length, size_t counts[3], const uint32_t *order, size_t order_length,
    double *newpositions, size_t newpositions_length, uint32_t *newpoints, size_t newpoints_length,
    uint32_t *newedges, size_t newedges_length, double *newintervals, size_t newintervals_length,
    uint32_t *newfaces, size_t newfaces_length);

/* Finds the lowest-numbered edge of the mesh that crosses a depth, which is a z coordinate: one end is at or above the depth, the
   other at or below. Both ends at the depth will do; -0 is 0. Takes tables of any content and counts of any size.
     edge         one word: the number of the first edge that crosses, written where the answer is 0
   Answers 0, 42, 30, 41, the first that holds of these grounds in this order. In a mesh whose points are all joined through
   edges every finite depth from its lowest to its highest point has a crossing edge, so that 41 cannot occur there. Writes nothing
   but the edge. */
uint32_t lavyngo_find_depth(
    const double *positions, size_t positions_length, const uint32_t *points, size_t points_length,
    const uint32_t *edges, size_t edges_length, const double *intervals, size_t intervals_length,
    const uint32_t *faces, size_t faces_length, const size_t counts[3], double depth, size_t *edge);

/* Writes the handover listing of the mesh, text `[mesh 3]`: every row of its points, edges and faces as a line.
     text         the output; an output that is just as long as the listing suffices
     written      one word: how many bytes the listing has, written where the answer is 0
   Answers 0, 30, 2 (over the ceilings), 4 (the output is too short), the first that holds in this order. Writes nothing where the
   answer is not 0, and no byte behind the listing. */
uint32_t lavyngo_write_listing(
    const double *positions, size_t positions_length, const uint32_t *points, size_t points_length,
    const uint32_t *edges, size_t edges_length, const double *intervals, size_t intervals_length,
    const uint32_t *faces, size_t faces_length, const size_t counts[3], uint8_t *text, size_t text_length, size_t *written);

/* Reads a handover listing into the tables: the identical rows and counts, every bit. Rows beyond those listed are untouched.
   Answers 0, 40 (not of the form), 2 (over the ceilings), 4 (fewer rows than are listed), 30 (no closed mesh), the first that
   holds in this order. 40, 2 and 4 touch nothing; 30 zeroes as many rows of each kind as are listed. */
uint32_t lavyngo_read_listing(
    const uint8_t *text, size_t text_length,
    double *positions, size_t positions_length, uint32_t *points, size_t points_length,
    uint32_t *edges, size_t edges_length, double *intervals, size_t intervals_length,
    uint32_t *faces, size_t faces_length, size_t counts[3]);

/* THE SAME BY TABLES
   Nobody needs to write a row's width or to count elements: struct lavyngo_tables holds the five tables of a mesh with their
   rows, and a wrapper for each function takes it. */

struct lavyngo_tables {
    double *positions;
    uint32_t *points;
    uint32_t *edges;
    double *intervals;
    uint32_t *faces;
    size_t point_rows, edge_rows, face_rows;
};

/* Five tables with so many rows, that the caller has made. */
static inline struct lavyngo_tables lavyngo_tables_of(
    double *positions, uint32_t *points, uint32_t *edges, double *intervals, uint32_t *faces,
    size_t point_rows, size_t edge_rows, size_t face_rows) {
    struct lavyngo_tables t = {positions, points, edges, intervals, faces, point_rows, edge_rows, face_rows};
    return t;
}

/* Makes five arrays with so many rows and `name`, the struct of them: LAVYNGO_TABLES(mesh, 98, 192, 96); */
#define LAVYNGO_TABLES(name, point_rows, edge_rows, face_rows)                                                          \
    static double name##_positions[LAVYNGO_POSITION * (point_rows)], name##_intervals[LAVYNGO_INTERVAL * (edge_rows)];  \
    static uint32_t name##_points[LAVYNGO_POINT * (point_rows)], name##_edges[LAVYNGO_EDGE * (edge_rows)];              \
    static uint32_t name##_faces[LAVYNGO_FACE * (face_rows)];                                                           \
    static const struct lavyngo_tables name = {name##_positions, name##_points, name##_edges, name##_intervals,         \
                                               name##_faces, (point_rows), (edge_rows), (face_rows)}

/* The five tables of t as the functions take them: a pointer and its number of elements each. */
#define LAVYNGO_LENT(t)                                                                                       \
    (t)->positions, LAVYNGO_POSITION * (t)->point_rows, (t)->points, LAVYNGO_POINT * (t)->point_rows,         \
        (t)->edges, LAVYNGO_EDGE * (t)->edge_rows, (t)->intervals, LAVYNGO_INTERVAL * (t)->edge_rows,         \
        (t)->faces, LAVYNGO_FACE * (t)->face_rows

static inline uint32_t lavyngo_tables_build(
    const double *coordinates, size_t coordinates_length, const uint32_t *sides, size_t sides_length,
    const uint32_t *listed, size_t listed_length, const double *beside, size_t beside_length,
    const struct lavyngo_tables *t, size_t counts[3]) {
    return lavyngo_build(coordinates, coordinates_length, sides, sides_length, listed, listed_length, beside, beside_length,
                         LAVYNGO_LENT(t), counts);
}

static inline uint32_t lavyngo_tables_build_2(
    const double *coordinates, size_t coordinates_length, const uint32_t *sides, size_t sides_length,
    const uint32_t *firsts, size_t firsts_length,
    const uint32_t *listed, size_t listed_length, const double *beside, size_t beside_length,
    const struct lavyngo_tables *t, size_t counts[3]) {
    return lavyngo_build_2(coordinates, coordinates_length, sides, sides_length, firsts, firsts_length, listed, listed_length,
                           beside, beside_length, LAVYNGO_LENT(t), counts);
}

static inline uint32_t lavyngo_tables_build_text(
    const uint8_t *text, size_t text_length, const struct lavyngo_tables *t, size_t counts[3]) {
    return lavyngo_build_text(text, text_length, LAVYNGO_LENT(t), counts);
}

static inline uint32_t lavyngo_tables_audit(const struct lavyngo_tables *t, const size_t counts[3]) {
    return lavyngo_audit(LAVYNGO_LENT(t), counts);
}

static inline uint32_t lavyngo_tables_step(
    const struct lavyngo_tables *t, size_t counts[3], const uint32_t *order, size_t order_length,
    const struct lavyngo_tables *scratch) {
    return lavyngo_step(LAVYNGO_LENT(t), counts, order, order_length, LAVYNGO_LENT(scratch));
}

static inline uint32_t lavyngo_tables_step_published(
    const struct lavyngo_tables *t, size_t counts[3], const uint32_t *order, size_t order_length,
    const struct lavyngo_tables *scratch) {
    return lavyngo_step_published(LAVYNGO_LENT(t), counts, order, order_length, LAVYNGO_LENT(scratch));
}

static inline uint32_t lavyngo_tables_find_depth(
    const struct lavyngo_tables *t, const size_t counts[3], double depth, size_t *edge) {
    return lavyngo_find_depth(LAVYNGO_LENT(t), counts, depth, edge);
}

static inline uint32_t lavyngo_tables_write_listing(
    const struct lavyngo_tables *t, const size_t counts[3], uint8_t *text, size_t text_length, size_t *written) {
    return lavyngo_write_listing(LAVYNGO_LENT(t), counts, text, text_length, written);
}

static inline uint32_t lavyngo_tables_read_listing(
    const uint8_t *text, size_t text_length, const struct lavyngo_tables *t, size_t counts[3]) {
    return lavyngo_read_listing(text, text_length, LAVYNGO_LENT(t), counts);
}

/* The most bytes that the listing of a mesh with these counts can have. */
static inline size_t lavyngo_listing_most(const size_t counts[3]) {
    return 15 + 93 * counts[LAVYNGO_POINTS] + 112 * counts[LAVYNGO_EDGES] + 62 * counts[LAVYNGO_FACES];
}

/* The rows that a step of a mesh with these counts needs, in the tables and in scratch. */
static inline void lavyngo_counts_after(const size_t counts[3], size_t after[3]) {
    const size_t points = counts[LAVYNGO_POINTS], edges = counts[LAVYNGO_EDGES], faces = counts[LAVYNGO_FACES];
    after[LAVYNGO_POINTS] = points + edges + faces;
    after[LAVYNGO_EDGES] = 4 * edges;
    after[LAVYNGO_FACES] = 2 * edges;
}

/* What an answer means, in words. */
static inline const char *lavyngo_ground_words(uint32_t answer) {
    switch (answer) {
    case LAVYNGO_ACCEPTED: return "accepted";
    case LAVYNGO_NOT_TEXT: return "the text is not of the form of a mesh text";
    case LAVYNGO_OVER_COUNTS: return "too many points, faces or listed points, or list lengths that disagree";
    case LAVYNGO_UNFIT_NUMBER: return "a number that is not finite, or an interval with the sign bit set";
    case LAVYNGO_FEW_ROWS: return "fewer rows are lent than are needed";
    case LAVYNGO_FACE_SIZE: return "a face of fewer than 3 or more than 64 points";
    case LAVYNGO_OUT_OF_RANGE: return "a listed point that is no point";
    case LAVYNGO_POINT_TWICE: return "a point twice in a face";
    case LAVYNGO_FIRST_POINT: return "the first point of a side is not the point listed last before it";
    case LAVYNGO_NON_RECTANGULAR_FACE: return "the intervals of opposite sides of a face do not sum up alike";
    case LAVYNGO_EDGE_TRIPLE_FACE: return "an edge that has two faces already";
    case LAVYNGO_SAME_WAY: return "the second face of an edge runs the same way as the first";
    case LAVYNGO_MISSING_FACE: return "an edge with one face: the surface has a hole";
    case LAVYNGO_NO_EDGE: return "a point with no edge";
    case LAVYNGO_MISSED_EDGE: return "the walk about a point misses an edge: surfaces that meet in one point";
    case LAVYNGO_NOT_CLOSED: return "the tables with these counts are no closed mesh";
    case LAVYNGO_NOT_EACH_FACE_ONCE: return "the order is not each face once";
    case LAVYNGO_NO_ROOM: return "too few rows for the mesh after the step, or that mesh is too large";
    case LAVYNGO_NOT_FINITE: return "a number of the mesh after the step would not be finite";
    case LAVYNGO_NOT_LISTING: return "the text is not of the form of a handover listing";
    case LAVYNGO_NOWHERE: return "no edge crosses the depth";
    case LAVYNGO_NOT_FINITE_DEPTH: return "the depth is not finite";
    case LAVYNGO_TWISTED: return "no choice of faces turned round makes all neighbours run opposite ways";
    default: return "no answer of this library";
    }
}

/* Whether this thread works out binary64 as the proofs of the library begin with it: rounded to nearest, numbers below the
   normal ones kept. A program linked with -ffast-math is not fit: with the numbers below the normal ones taken for 0 the
   library answers other bits, and no refusal says so. Ask it once, before the first call. */
static inline int lavyngo_numbers_fit(void) {
    volatile double least = 4.9406564584124654e-324, one = 1.0, half_unit = 1.1102230246251565e-16, unit = 2.220446049250313e-16;
    const volatile double kept = least * one;
    const volatile double down = one + half_unit, up = (one + unit) + half_unit, below = -one - half_unit;
    double seen = kept;
    uint64_t bits = 0;
    unsigned char *to = (unsigned char *)&bits;
    const unsigned char *from = (const unsigned char *)&seen;
    for (size_t k = 0; k < sizeof bits; k++) to[k] = from[k];
    return bits == 1 && down == 1.0 && up == 1.0 + 2 * unit && below == -1.0;
}

#ifdef __cplusplus
}
#endif

#endif
