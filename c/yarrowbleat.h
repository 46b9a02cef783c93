/*
 * Yarrowbleat for C: the proved port of ball pivoting, in libyarrowbleat.a and libyarrowbleat.so (in the repository:
 * libexports.a). The library is for 64-bit x86 alone.
 *
 * A slice is a pointer and the number of its entries (not bytes); a null pointer with length 0 is an empty one. What
 * can't be checked is the caller's: a pointer is aligned and good for its length, a slice that isn't const overlaps
 * no other, and a bool is 0 or 1, as C makes it of any number. Another byte, which only memset or memcpy can put
 * there, may count as true at one place and as false at another. Settings that memset filled are refused with 5
 * whatever the byte: for their counts, or, filled with 0, for their radius.
 *
 * Nothing is allocated and nothing is kept between calls: each is a function of what it is lent, and any number of
 * threads may call at once, as long as no slice that isn't const is lent to two of them.
 *
 * Call yb_check_layout() once before the rest: false says that the library is not the one of this header.
 *
 * Most calls of the second half answer a number, 0 if they accept, and a detail, 0 where none is named. YbAnswer has
 * names for the numbers, yb_answer_text words:
 *
 *    1  the points slice is empty
 *    2  the points' length (or the faces' or the spots') is not a multiple of 3, or the normals' length differs from it
 *    3  there are more than 4,096 points, or more than 1,000,000 faces to write
 *    4  a coordinate is not within -10,000 to 10,000, or a normal's component is not finite; detail: the first such
 *       point, from 0; of a spot the number of points and the spot's number
 *    5  a setting is outside its bounds; detail: the first such setting's number
 *    6  the percentile of the radius estimate is not within 0 to 1
 *    7  a work slice, or the index, is too short
 *    8  no triangle was found: there are fewer than three points
 *    9  more faces were found than a third of the face slice's length, or than a half of the origins' slice's, rounded
 *       down
 *   10  a line of the file is malformed; detail: the first such line, from 1
 *   11  all lines are well formed, but the points don't fit the slices, or a program's input exceeds 65,536 bytes
 *   12  the bytes are no STL file: fewer than 84, or not 84 + 50 times the count that they name
 *   13  an output slice is too short
 *   14  a face or a number names a point that isn't there
 *   15  no triangle was found: of the triples that were tried none lay close enough together to be judged, at any
 *       radius
 *   16  no triangle was found: all triples that were judged were turned down
 *   17  two of three point numbers are equal
 *   18  a turned patch was asked for, and the plain path ran, whose faces have no parents
 *   19  the tally is full: it has 100,000 patches
 *   20  a season's patch has no points, more than 4,096, more covered than scanned or more than 10,000 faces
 *   21  figures are asked of an empty tally
 *   22  the index isn't this cloud's
 *   23  no order of the faces could be a patch's
 *   24  no season can have left the tally
 *
 * The checks are made in this order, but that 15 and 16 stand right behind 8, and but for calls that name theirs; a
 * not-a-number is within no bounds. At a refusal every other field is 0. A tally's answers have no detail. The
 * settings' numbers stand at YbBallPivotingConfig, what 24 refuses at YbTally.
 *
 * Each call says how its time grows, roughly what it took, and how much stack it may take. tests/times.c takes the
 * times again, on whichever machine; tests/stack measures the stack by painting it.
 *
 * A slice that stays as it was, or the part of one, does so bit for bit, but for one thing: what is proved treats all
 * not-a-numbers as one, so of a float slice that held one it says that it holds one still, not with which payload.
 */
#ifndef YARROWBLEAT_H
#define YARROWBLEAT_H

#include <stdbool.h>
#include <stddef.h>
#include <stdint.h>

#ifdef __cplusplus
#define YB_ASSERT static_assert
extern "C" {
#else
#define YB_ASSERT _Static_assert
#endif

/* An answer that is dropped is a warning of the compiler's. */
#if defined(__cplusplus) && __cplusplus >= 201703L
#define YB_NODISCARD [[nodiscard]]
#elif defined(__GNUC__)
#define YB_NODISCARD __attribute__((warn_unused_result))
#else
#define YB_NODISCARD
#endif

/* The version, 0.4.0, and the layout of the structs below as one number: see yb_version and yb_layout. */
#define YB_VERSION 4000u
#define YB_LAYOUT 1298813845u

/* The answers. */
typedef enum {
    YB_ACCEPTED = 0,
    YB_NO_POINTS = 1,
    YB_LENGTHS = 2,
    YB_TOO_MANY_POINTS = 3,
    YB_POINT = 4,
    YB_SETTING = 5,
    YB_PERCENTILE = 6,
    YB_WORK = 7,
    YB_TOO_FEW_POINTS = 8,
    YB_FACES = 9,
    YB_LINE = 10,
    YB_ROOM = 11,
    YB_BAD_STL = 12,
    YB_OUTPUT_TOO_SHORT = 13,
    YB_NO_SUCH_POINT = 14,
    YB_NONE_CLOSE = 15,
    YB_ALL_TURNED_DOWN = 16,
    YB_EQUAL_NUMBERS = 17,
    YB_TURNED_PLAIN = 18,
    YB_TALLY_FULL = 19,
    YB_SEASON_PATCH = 20,
    YB_TALLY_EMPTY = 21,
    YB_FOREIGN_INDEX = 22,
    YB_NO_ORDER = 23,
    YB_TALLY = 24
} YbAnswer;

/* An answer in words, whatever the number. */
static inline const char *yb_answer_text(uint32_t answer) {
    switch (answer) {
    case YB_ACCEPTED: return "accepted";
    case YB_NO_POINTS: return "there are no points";
    case YB_LENGTHS: return "the lengths of the slices don't belong together";
    case YB_TOO_MANY_POINTS: return "there are too many points, or too many faces to write";
    case YB_POINT: return "a coordinate or normal is outside the domain";
    case YB_SETTING: return "a setting is outside its bounds";
    case YB_PERCENTILE: return "the percentile is not within 0 to 1";
    case YB_WORK: return "a work slice is too short";
    case YB_TOO_FEW_POINTS: return "no triangle was found: there are fewer than three points";
    case YB_FACES: return "the faces found don't fit the face slice";
    case YB_LINE: return "a line of the file is malformed";
    case YB_ROOM: return "the file's points don't fit the slices";
    case YB_BAD_STL: return "the bytes are no STL file, or not as many as it says";
    case YB_OUTPUT_TOO_SHORT: return "an output slice is too short";
    case YB_NO_SUCH_POINT: return "a face or a number names a point that isn't there";
    case YB_NONE_CLOSE: return "no triangle was found: no three points lie close enough together";
    case YB_ALL_TURNED_DOWN: return "no triangle was found: all that were judged were turned down";
    case YB_EQUAL_NUMBERS: return "two of three point numbers are equal";
    case YB_TURNED_PLAIN: return "a turned patch was asked for, and the plain path ran";
    case YB_TALLY_FULL: return "the tally has 100,000 patches";
    case YB_SEASON_PATCH: return "the patch's counts can't be entered";
    case YB_TALLY_EMPTY: return "the tally is empty";
    case YB_FOREIGN_INDEX: return "the index isn't this cloud's";
    case YB_NO_ORDER: return "no order of the faces could be a patch's";
    case YB_TALLY: return "no season can have left this tally";
    default: return "an answer that this version has no words for";
    }
}

/* The most points of a cloud. */
#define YB_MAX_POINTS 4096

/* The least lengths of the work slices for n points. */
#define YB_WORDS(n) (24 * (size_t)(n) + 64)
#define YB_FLOATS(n) (4 * (size_t)(n) + 64)

/* The least length of an index of n points. */
#define YB_INDEX(n) (8 * (size_t)(n) + 64)

/* The length of a face slice that never gets a 9, whatever the cloud: 3 numbers a face, at most 10,000 faces. */
#define YB_FACE_NUMBERS 30000

/* The length of an origins' slice that never gets a 9: 2 numbers a face. */
#define YB_ORIGIN_NUMBERS 20000

/* The length of an STL file of n faces. */
#define YB_STL_BYTES(n) (84 + 50 * (size_t)(n))

/* The numbers that yb_read_stl gives of an STL file of this many bytes: nine for every 50 bytes past the first 84. */
#define YB_STL_CORNERS(bytes) ((size_t)(bytes) < 84 ? 0 : 9 * (((size_t)(bytes) - 84) / 50))

/* The six measures of a triangle. */
typedef struct {
    float aspect_ratio;
    float min_angle;
    float max_angle;
    float area;
    float edge_ratio;
    float quality_score;
} YbTriangleQuality;

/* The answer of the radius estimate. */
typedef struct {
    uint32_t answer;
    uint32_t detail;
    float radius;
} YbEstimate;

/*
 * The settings. Those with a number are checked, in the order of the numbers. Slots past a list's count are never read;
 * a count may be 0. yb_default_config fills all of them in.
 *
 * radius                1: 0.001 to 1,000. The radius of the ball. A seed's three points are at most two radii apart;
 *                       a point that the ball meets is at most one radius from both ends of the edge.
 * additional_radii      2: at most 8, each 0.001 to 1,000. Further balls. All radii are tried in rising order.
 * adaptive_radius       True: the radii are tried, with those of the percentiles. False: the plain path is taken,
 *                       which lays a face over any three near points; it has no seeds, and a turned patch is refused
 *                       with 18.
 * adaptive_percentiles  3: at most 8, each 0 to 1. Each gives one more radius: twice that percentile of the samples'
 *                       mean distances to their ten nearest points. If no sample has a neighbour within three radii,
 *                       the plain path is taken.
 * quality_threshold     4: 0 to 1,000,000. The least score of a face; a score is 1 for a triangle with equal edges.
 * max_edge_factor       5: 0 to 1,000,000. A triangle is turned down if its edge ratio (the longest edge divided by
 *                       the shortest) times the root of its area is above radius * max_edge_factor. It is no limit on
 *                       the length of an edge.
 * min_triangle_area     6: 0 to 1,000,000. The least area of a face. A face of area zero is never laid.
 * use_spatial_index     True: the neighbours of a place are the points in the cells around it, cell by cell. False:
 *                       they are all points, in number order. This changes which face is found first.
 * spatial_cell_factor   7: 0.5 to 16. The width of a cell, in radii.
 * frontier_rule         8: 1 or 2. The order in which waiting edges are pivoted over. 1 is the old program's, that of
 *                       its heap. 2 is first come, first pivoted, so that a surface spreads evenly from its seed. It
 *                       decides nothing on the plain path. 0 is refused, so a caller that fills the fields one by one
 *                       has to set it.
 *
 * frontier_rule came with version 0.3.0, and the struct grew from 100 to 104 bytes: callers must be recompiled.
 */
typedef struct {
    float radius;
    float additional_radii[8];
    uint32_t additional_count;
    bool adaptive_radius;
    float adaptive_percentiles[8];
    uint32_t percentile_count;
    float quality_threshold;
    float max_edge_factor;
    float min_triangle_area;
    bool use_spatial_index;
    float spatial_cell_factor;
    uint32_t frontier_rule;
} YbBallPivotingConfig;

/* The answer of a reconstruction. */
typedef struct {
    uint32_t answer;
    uint32_t detail;
    uint32_t faces;       /* faces laid: the first 3 * faces numbers of the face slice */
    uint32_t seeds;       /* of these, the ones that were laid as seeds */
    uint32_t looks;       /* entries taken from the frontier */
    uint32_t pivots;      /* looks at an edge that was not processed before */
    uint32_t radii_count; /* radii tried; 0 on the plain path */
    float radii[17];      /* rising; zeros past the count */
} YbPatch;

/* The answer of the cloud reader. */
typedef struct {
    uint32_t answer;
    size_t detail;
    float radius;
    size_t count; /* points */
} YbCloudRead;

/* The answer of the STL writer. */
typedef struct {
    uint32_t answer;
    size_t detail;
    size_t length; /* bytes written: YB_STL_BYTES(faces) */
} YbStlWritten;

/* The answer of the STL reader. */
typedef struct {
    uint32_t answer;
    size_t detail;
    size_t faces; /* facets read, nine numbers each */
} YbStlRead;

/* Why a triangle was turned down, or that it was not. At a refusal kind and measured are 0. */
typedef struct {
    uint32_t answer;
    uint32_t detail;
    uint32_t kind;  /* a YbKind */
    float measured; /* of good and poor the score, of no area and small the area, of long see yb_judge_triangle */
} YbVerdict;

/* The kinds of a verdict, in the order of the tests but for the first. */
typedef enum { YB_GOOD = 1, YB_NO_AREA = 2, YB_SMALL = 3, YB_POOR = 4, YB_LONG = 5 } YbKind;

/* The answer about faces of another program. */
typedef struct {
    uint32_t answer;
    size_t detail;
    size_t faces;   /* faces: the first so many numbers of the order slice */
    uint32_t seeds; /* of these, the ones that share no edge with an earlier one */
} YbOrdered;

/* What is entered of a patch: a number of the caller's own, the cloud's points, those that a face touches, faces. */
typedef struct {
    uint32_t number;
    uint32_t scanned; /* 1 to 4,096 */
    uint32_t covered; /* at most scanned */
    uint32_t faces;   /* at most 10,000 */
} YbSeasonPatch;

/*
 * The sums over a season's patches. All zeros is an empty tally. With patches = 0 best and worst may hold anything. A
 * pointer to one is not null, is aligned as the compiler aligns the struct, and is used by one thread at a time.
 * 24 refuses a tally with more than 100,000 patches, with a sum above its patches times 10,000 (faces), 10,000 squared
 * (face_squares) or 4,096 (scanned, covered), with scanned below patches or below covered, with faces squared above
 * patches times face_squares, or, unless patches is 0, with a best or worst that 20 would refuse.
 */
typedef struct {
    uint64_t patches;
    uint64_t faces;
    uint64_t face_squares;
    uint64_t scanned;
    uint64_t covered;
    YbSeasonPatch best;
    YbSeasonPatch worst;
} YbTally;

/* A fraction in lowest terms: no number above 1 divides both, and 0 is 0/1. At a refusal both are 0. */
typedef struct {
    uint64_t numerator;
    uint64_t denominator;
} YbFraction;

/* The figures of a season. */
typedef struct {
    uint32_t answer;
    uint64_t patches;
    YbFraction mean;     /* of the face counts */
    YbFraction variance; /* (patches * face_squares - faces * faces) / (patches * patches) */
    YbFraction coverage; /* covered / scanned */
    YbSeasonPatch best;  /* of equally covered ones the earlier */
    YbSeasonPatch worst;
    YbFraction best_coverage;
    YbFraction worst_coverage;
} YbFigures;

/* The answer of building an index. */
typedef struct {
    uint32_t answer;
    uint32_t detail;
} YbIndexed;

/* Whether an index is a cloud's; no at a refusal. */
typedef struct {
    uint32_t answer;
    uint32_t detail;
    bool belongs;
} YbBelongs;

/* The nearest point to a spot and its distance, both 0 at a refusal. */
typedef struct {
    uint32_t answer;
    uint32_t detail;
    uint32_t point;
    float distance;
} YbNearest;

/* The answer of a search for many spots. */
typedef struct {
    uint32_t answer;
    size_t detail;
} YbSearched;

/* ---- The library itself ---- */

/* The library's version: a million times the first number, a thousand times the second, and the third. */
uint32_t yb_version(void);

/* The layout of the structs of the library, which changes whenever one of them does. */
uint32_t yb_layout(void);

/*
 * The version again, under a name that tells version and layout: whoever calls it can't be linked to another library,
 * and whoever reads the archive's list of symbols knows both without running anything.
 */
uint32_t yb_release_4000_1298813845(void);

/* True if the library is the one that this header was written for. */
static inline bool yb_check_layout(void) { return yb_version() == YB_VERSION && yb_layout() == YB_LAYOUT; }

/* ---- Single numbers and triangles: every input is accepted. ---- */

/* The nearest float to the square root; a not-a-number below zero. */
float yb_sqrt(float x);

/* The arc cosine as musl has it; a not-a-number outside -1 to 1. */
float yb_acos(float v);

/* The fraction dropped, held to 0 .. 2^32 - 1; of a not-a-number 0. */
uint32_t yb_cut(float x);

/* The least whole number that is not below x, held to 0 .. 2^32 - 1; of a not-a-number 0. */
uint32_t yb_ceil_cut(float x);

/* The lesser and the greater; where one is a not-a-number, the other. */
float yb_min(float a, float b);
float yb_max(float a, float b);

/* v held to lo .. hi; a not-a-number is passed on. */
float yb_clamp(float v, float lo, float hi);

/*
 * The distance of two points. Where the coordinates are multiples of 1/64 and at most 1,000 in size its square differs
 * from the exact one by at most a part of 1/2,097,152 (docs/ACCURACY.md). Equal points with finite coordinates have
 * distance 0.
 */
float yb_distance(float x1, float y1, float z1, float x2, float y2, float z2);

/* The radius of the circle through three points; infinity where the triangle's area is below 1e-10. */
float yb_compute_circumradius(float x1, float y1, float z1, float x2, float y2, float z2, float x3, float y3, float z3);

/* The measures of a triangle. An area below 1e-10 gives score 0, edge ratio infinity and largest angle pi. */
YbTriangleQuality yb_compute_triangle_quality(float x1, float y1, float z1, float x2, float y2, float z2, float x3,
                                              float y3, float z3);

/*
 * True if a triangle with these measures is laid at this radius, under these three settings. Any bits are taken. An
 * area of exactly zero, of either sign, is turned down under every setting; a not-a-number is not for that.
 */
bool yb_is_triangle_acceptable(YbTriangleQuality quality, float radius, float min_triangle_area,
                               float quality_threshold, float max_edge_factor);

/* ---- Clouds ---- */

/* The default settings at a radius: those of ball_pivoting_from_normals, rule 1. Slots past a list's count are 0. */
YbBallPivotingConfig yb_default_config(float radius);

/*
 * A radius that suits the cloud: 2.5 times the percentile of its points' least distances, or 0.1 if there is none.
 *
 * points: three coordinates a point, points_len of them, 1 to 4,096 points.
 * work_u32, work_f32: at least YB_WORDS(n) = 24n + 64 and YB_FLOATS(n) = 4n + 64 entries for n points.
 *
 * Answers 0, 1, 2 (first half), 3, 4 (coordinates), 6 or 7. At 0 both work slices end as zeros; at a refusal they are
 * untouched and the radius is 0.
 *
 * Time: grows with the points and, where many lie near each other, with the square of those; 0.2 ms for a wall of
 * 4,096 points.
 * Stack: 2 KB.
 */
YB_NODISCARD
YbEstimate yb_estimate_optimal_radius(const float *points, size_t points_len, float percentile, uint32_t *work_u32,
                                      size_t work_u32_len, float *work_f32, size_t work_f32_len);

/*
 * Lays a patch of triangles over the cloud.
 *
 * points: three coordinates a point, 1 to 4,096 points. normals: as many numbers; they change no face.
 * faces: gets three point numbers a face, from 0; YB_FACE_NUMBERS entries are always enough.
 * words, floats: work slices of at least YB_WORDS(n) = 24n + 64 and YB_FLOATS(n) = 4n + 64 entries for n points.
 *
 * Answers 0 to 5, 7 to 9, 15 and 16. What it leaves:
 *   0             faces at the front of the face slice, the rest of it as it was; both work slices zeros
 *   1 to 5 and 7  all three slices as they were
 *   8, 15 and 16  the face slice as it was; both work slices zeros
 *   9             all three slices zeros (9 means more faces than faces_len / 3)
 *
 * Time: a bell wall of 4,096 points takes 3 to 6 ms. Where no three points make a seed, most of them are told so in
 * whole ranges; what has to be measured one by one grows with the cube of the number of points near each other. Of the
 * clouds searched for these take longest. Three clusters at the corners of a triangle, with a threshold within some
 * ulps of its score, where only measuring tells: 0.5 s at 512 points, 2.3 s at 1,024 and 16 s at 4,096. Tiny clusters
 * along a line, each twice as far out as the last, whose points are so near each other that rounding decides: 0.4 s,
 * 3 s and 73 s. Slivers along a shallow arc with nine radii take 2.6 s at 4,096 points. Under the default settings
 * two short lines of points next to each other take 1.1 s at 512 points and 8.2 s at 1,024.
 *
 * Stack: 20 KB.
 */
YB_NODISCARD
YbPatch yb_reconstruct_with_normals(const float *points, size_t points_len, const float *normals, size_t normals_len,
                                    YbBallPivotingConfig settings, uint32_t *faces, size_t faces_len,
                                    uint32_t *words, size_t words_len, float *floats, size_t floats_len);

/*
 * Lays the same patch and says where each face came from; turned, every shared edge of it runs once each way.
 *
 * origins: gets two numbers a face, both from 0: its parent's number, and the place of its radius in the list of
 * radii that comes back, in which a radius that lays nothing counts too. A seed is its own parent; any other face's
 * parent is the face over whose edge the ball was pivoted: it comes earlier and has the face's first two points as an
 * edge. As laid that edge runs in the parent in the same direction, turned in the other one. Without radii each face
 * is its own parent, at place 0. YB_ORIGIN_NUMBERS entries are always enough.
 *
 * turned: as a face is laid along its parent's edge in the same direction, neighbours face opposite ways. In a turned
 * patch a seed looks out; any other face looks out when its parent looks in, and looks in when its parent looks out;
 * those that look in have their first two points swapped. Then every edge that lies in two faces runs once each way,
 * which is proved. Order, parents and places are the same as without.
 *
 * Answers 0 to 5, 7 to 9, 15, 16 and 18, which is tried last, after 9. What it leaves:
 *   0             faces and origins at the front of their slices, the rest of these as it was; both work slices zeros
 *   1 to 5 and 7  all four slices as they were
 *   8, 15 and 16  both slices for faces and origins as they were; both work slices zeros
 *   9             all four slices zeros (9 means more faces than faces_len / 3 or than origins_len / 2)
 *   18            both slices for faces and origins as they were; both work slices zeros
 *
 * Time: that of yb_reconstruct_with_normals; the origins add what a pass over the faces takes.
 * Stack: 20 KB.
 */
YB_NODISCARD
YbPatch yb_reconstruct_with_origins(const float *points, size_t points_len, const float *normals, size_t normals_len,
                                    YbBallPivotingConfig settings, bool turned, uint32_t *faces, size_t faces_len,
                                    uint32_t *origins, size_t origins_len, uint32_t *words, size_t words_len,
                                    float *floats, size_t floats_len);

/*
 * Reads a cloud file: a line with the radius, then a line x,y,z,nx,ny,nz for each point, each line ended by LF. A
 * number is an optional minus, 1 to 5 digits, and optionally a point and 1 to 6 digits; it is read as the nearest
 * float.
 *
 * points, normals: get three numbers a point; as many points as there are LFs in the file are always enough.
 *
 * Answers 0, 10 or 11. At 0 what lies past the last point stays as it was; at a refusal both slices do, and radius
 * and count are 0. A file of one line has no points and is accepted.
 *
 * Time: grows with the bytes, some 3 to 5 ns each.
 * Stack: 2 KB.
 */
YB_NODISCARD
YbCloudRead yb_read_cloud(const uint8_t *bytes, size_t bytes_len, float *points, size_t points_len, float *normals,
                          size_t normals_len);

/*
 * Marks the points that faces reach: reached[p] becomes 1 if p is among the faces' numbers, else 0. The answer is how
 * many were marked. Of a patch with radii that is faces + 2 * seeds, which is proved (marks_of_patch of crate exports).
 *
 * faces: three point numbers a face, as yb_reconstruct_with_normals leaves them; 3 * patch.faces entries.
 * reached: an entry for each point. A number beyond them is skipped.
 *
 * Every input is accepted, and every entry is written.
 *
 * Time: grows with both lengths, some 1 ns an entry.
 * Stack: 2 KB.
 */
size_t yb_mark_reached(const uint32_t *faces, size_t faces_len, uint32_t *reached, size_t reached_len);

/* ---- STL files ---- */

/*
 * Writes faces as binary STL: 80 zero bytes, the number of faces, then 50 bytes a face: its normal, its three corners
 * and two zero bytes, every number with its lowest byte first. A normal is the cross product of second less first
 * corner with third less first, divided by its length; zeros where that length is computed as 0.
 *
 * points: three coordinates a point, any number of points, none too. faces: three point numbers a face, none too.
 * bytes: gets the file; YB_STL_BYTES(faces_len / 3) bytes are enough.
 *
 * Answers, tried in this order: 2 points or faces not in threes, 3 more than 1,000,000 faces, 4 (coordinates of any
 * point, in a face or not), 14, 13; there is no 1. At 0 what lies past the file stays as it was, at a refusal all does.
 *
 * Time: grows with points and faces, some 35 ns a face.
 * Stack: 2 KB.
 */
YB_NODISCARD
YbStlWritten yb_write_stl(const float *points, size_t points_len, const uint32_t *faces, size_t faces_len,
                          uint8_t *bytes, size_t bytes_len);

/*
 * Reads the corners of a binary STL file, of any number of facets; whatever header, normals and last two bytes of the
 * facets are is read past, and coordinates are not looked at: a not-a-number is stored as some not-a-number.
 *
 * corners: gets nine numbers a facet, corner after corner; YB_STL_CORNERS(bytes_len) entries are enough.
 *
 * Answers 0, 12 or 13. At 0 what lies past the last corner stays as it was, at a refusal all does. Of a file that
 * yb_write_stl wrote these are the faces' corners, bit for bit and in their order; written again, as points 0, 1, 2, ..
 * with faces (0,1,2), (3,4,5), .., they give the same bytes. Both are proved (Calls.antt of crate stl_file).
 *
 * Time: grows with the facets, some 7 ns each.
 * Stack: 2 KB.
 */
YB_NODISCARD
YbStlRead yb_read_stl(const uint8_t *bytes, size_t bytes_len, float *corners, size_t corners_len);

/*
 * Why the triangle of the points i, j and k was turned down, or that it was not. They are measured in this order, by
 * the acceptance test's order at settings.radius: no area (exactly zero), small (an area below min_triangle_area), poor
 * (a score below quality_threshold), long (the edge ratio times the root of the area above radius * max_edge_factor).
 * Good is proved to be told exactly where yb_is_triangle_acceptable is true (good_exactly of crate verdict).
 *
 * points, normals: as for yb_reconstruct_with_normals; nothing is written and no work slice is needed.
 * i, j, k: three different point numbers, from 0.
 *
 * Answers 0 to 5, 14 or 17, tried in this order. A long triangle's measure may be infinite.
 *
 * Time: grows with the points, since each call checks the whole cloud; 26 us at 4,096 points.
 * Stack: 2 KB.
 */
YB_NODISCARD
YbVerdict yb_judge_triangle(const float *points, size_t points_len, const float *normals, size_t normals_len,
                            YbBallPivotingConfig settings, size_t i, size_t j, size_t k);

/*
 * Says whether faces of another ball pivoter could be a patch of ours in shape, and in what order. The faces are lines
 * a,b,c of point numbers from 0, one to five digits each, each line ended by LF. Some order of them has to exist in
 * which each seed has three points that no earlier face has, and every other face shares an edge with an earlier one
 * and brings in exactly one new point; no edge may lie in more than two faces.
 *
 * point_count: at most 4,096; it may be 0, and points in no face are fine.
 * order: gets a number a face, from 0 in the file's order: at each place the lowest face left that shares an edge with
 * one placed, or where none does the lowest left. As many entries as there are LFs in the file are always enough.
 * words, floats: work slices of at least YB_WORDS(n) = 24n + 64 and YB_FLOATS(n) = 4n + 64 entries for n points.
 *
 * Answers 0, 10, 3, 14, 17, 7, 13 or 23, each tried for the whole file before the next one. What it leaves:
 *   0                    the order at the front of its slice, the rest of that as it was; both work slices zeros
 *   13, 23               the order slice as it was; both work slices zeros
 *   10, 3, 14, 17 and 7  all three slices as they were
 * Details but 10's are 0. An empty file has no faces and is accepted. No patch of yb_reconstruct_with_normals with
 * radii gets 23, in whatever order its lines stand and whichever way its faces are turned.
 *
 * Time: grows with the bytes, and with the faces times the logarithm of their number; 0.7 ms for 4,094 faces.
 * Stack: 2 KB.
 */
YB_NODISCARD
YbOrdered yb_order_patch(const uint8_t *bytes, size_t bytes_len, size_t point_count, uint32_t *order, size_t order_len,
                         uint32_t *words, size_t words_len, float *floats, size_t floats_len);

/*
 * Says of faces that stand in a slice, three point numbers each, what yb_order_patch says of lines.
 *
 * order: as many entries as there are faces, faces_len / 3, are always enough.
 *
 * Answers 0, 2, 3, 14, 17, 7, 13 or 23, each tried for all faces before the next one. It leaves what yb_order_patch
 * leaves, at 2 all three slices as they were. Details are 0.
 *
 * Time: grows with the faces times the logarithm of their number; 0.3 ms for 4,094 faces.
 * Stack: 2 KB.
 */
YB_NODISCARD
YbOrdered yb_order_faces(const uint32_t *faces, size_t faces_len, size_t point_count, uint32_t *order, size_t order_len,
                         uint32_t *words, size_t words_len, float *floats, size_t floats_len);

/* ---- Seasons ---- */

/*
 * Adds a patch to the tally, where it is. Answers 0, 24, 20 or 19, tried in this order; a refusal changes nothing.
 * Coverages are compared as fractions: only a strictly better or worse patch takes the place of best or worst.
 *
 * Time: below 1 us.
 * Stack: 2 KB.
 */
YB_NODISCARD
uint32_t yb_tally_add(YbTally *tally, YbSeasonPatch patch);

/*
 * The figures of the tally. Answers 0, 24 or 21, tried in this order; at a refusal every other field is 0.
 *
 * Time: below 1 us.
 * Stack: 2 KB.
 */
YB_NODISCARD
YbFigures yb_tally_figures(const YbTally *tally);

/* ---- The nearest scanned point ---- */

/*
 * Builds the index of a cloud, by which the nearest point is found at once: a tree of boxes, split at the middle of the
 * points' order along the longest side until eight points or fewer remain.
 *
 * points: three coordinates a point, 1 to 4,096 points.
 * index: gets YB_INDEX(n) = 8n + 64 numbers: the point numbers as the splits leave them, the boxes' coordinates as
 * bits, zeros. What lies past them stays.
 * words, floats: work slices of at least YB_WORDS(n) and YB_FLOATS(n) entries.
 *
 * Answers 0, 1, 2 (first half), 3, 4 (coordinates) or 7 (also for a short index). At 0 both work slices end as zeros;
 * at a refusal all three slices are as they were.
 *
 * Time: grows with the points times the logarithm of their number; 0.5 ms at 4,096 points.
 * Stack: 96 KB.
 */
YB_NODISCARD
YbIndexed yb_build_index(const float *points, size_t points_len, uint32_t *index, size_t index_len, uint32_t *words,
                         size_t words_len, float *floats, size_t floats_len);

/*
 * Tells whether an index is this cloud's: yes exactly if building it afresh gives the same numbers. Any bits are taken;
 * numbers past the first 8n + 64 are not read. Answers and work slices as for yb_build_index.
 *
 * Time: that of yb_build_index.
 * Stack: 96 KB.
 */
YB_NODISCARD
YbBelongs yb_index_belongs(const float *points, size_t points_len, const uint32_t *index, size_t index_len,
                           uint32_t *words, size_t words_len, float *floats, size_t floats_len);

/*
 * The point nearest to the spot (x, y, z): the least computed length, the lowest number among equals, exactly as a scan
 * over all points finds it.
 *
 * index, words, floats: as for yb_build_index.
 *
 * Answers 0, 1, 2 (first half), 3, 4 (coordinates; of the spot with the point count as detail), 7 or 22, tried in this
 * order. At 0 and 22 both work slices end as zeros, at any other answer they are as they were. That the index is this
 * cloud's is found out by building it anew, which costs more than a scan: for many spots take yb_nearest_points or
 * yb_nearest_distances, for one a scan over the points by yb_distance tells the same in a tenth of the time.
 *
 * Time: that of yb_build_index, and a search.
 * Stack: 96 KB.
 */
YB_NODISCARD
YbNearest yb_nearest_point(const float *points, size_t points_len, float x, float y, float z, const uint32_t *index,
                           size_t index_len, uint32_t *words, size_t words_len, float *floats, size_t floats_len);

/*
 * The points nearest to many spots, each as yb_nearest_point finds it; the index is looked at once.
 *
 * spots: three coordinates a spot; none are fine.
 * found: gets a point number a spot, spots_len / 3 of them. What lies past them stays, at a refusal all of it does.
 *
 * Answers 0, 1, 2 (first half, also for the spots' length), 3, 4 (coordinates; of a spot the detail is the point
 * count and the spot's number from 0), 7, 13 or 22, tried in this order. At 0, 13 and 22 both work slices end as
 * zeros, at any other answer they are as they were.
 *
 * Time: that of yb_build_index once, and a search for each spot: 0.3 us near a wall of 4,096 points, at worst several
 * scans over all points, as at the centre of a sphere.
 * Stack: 96 KB.
 */
YB_NODISCARD
YbSearched yb_nearest_points(const float *points, size_t points_len, const float *spots, size_t spots_len,
                             const uint32_t *index, size_t index_len, uint32_t *found, size_t found_len,
                             uint32_t *words, size_t words_len, float *floats, size_t floats_len);

/*
 * The points nearest to many spots, as yb_nearest_points finds them, and how far each of them is.
 *
 * distances: gets a distance a spot beside its number, the one that yb_nearest_point tells, spots_len / 3 of them. What
 * lies past them stays, at a refusal all of it does.
 *
 * Answers as yb_nearest_points; 13 is also told where the distances' slice is too short.
 *
 * Time: that of yb_nearest_points.
 * Stack: 96 KB.
 */
YB_NODISCARD
YbSearched yb_nearest_distances(const float *points, size_t points_len, const float *spots, size_t spots_len,
                                const uint32_t *index, size_t index_len, uint32_t *found, size_t found_len,
                                float *distances, size_t distances_len, uint32_t *words, size_t words_len,
                                float *floats, size_t floats_len);

/* ---- The layout that the library was built with ---- */

#define YB_SIZE(type, size) YB_ASSERT(sizeof(type) == (size), "the size of " #type)
#define YB_AT(type, field, offset) YB_ASSERT(offsetof(type, field) == (offset), "the offset of " #field " in " #type)

YB_SIZE(YbTriangleQuality, 24);
YB_AT(YbTriangleQuality, aspect_ratio, 0);
YB_AT(YbTriangleQuality, min_angle, 4);
YB_AT(YbTriangleQuality, max_angle, 8);
YB_AT(YbTriangleQuality, area, 12);
YB_AT(YbTriangleQuality, edge_ratio, 16);
YB_AT(YbTriangleQuality, quality_score, 20);

YB_SIZE(YbEstimate, 12);
YB_AT(YbEstimate, answer, 0);
YB_AT(YbEstimate, detail, 4);
YB_AT(YbEstimate, radius, 8);

YB_SIZE(YbBallPivotingConfig, 104);
YB_AT(YbBallPivotingConfig, radius, 0);
YB_AT(YbBallPivotingConfig, additional_radii, 4);
YB_AT(YbBallPivotingConfig, additional_count, 36);
YB_AT(YbBallPivotingConfig, adaptive_radius, 40);
YB_AT(YbBallPivotingConfig, adaptive_percentiles, 44);
YB_AT(YbBallPivotingConfig, percentile_count, 76);
YB_AT(YbBallPivotingConfig, quality_threshold, 80);
YB_AT(YbBallPivotingConfig, max_edge_factor, 84);
YB_AT(YbBallPivotingConfig, min_triangle_area, 88);
YB_AT(YbBallPivotingConfig, use_spatial_index, 92);
YB_AT(YbBallPivotingConfig, spatial_cell_factor, 96);
YB_AT(YbBallPivotingConfig, frontier_rule, 100);

YB_SIZE(YbPatch, 96);
YB_AT(YbPatch, answer, 0);
YB_AT(YbPatch, detail, 4);
YB_AT(YbPatch, faces, 8);
YB_AT(YbPatch, seeds, 12);
YB_AT(YbPatch, looks, 16);
YB_AT(YbPatch, pivots, 20);
YB_AT(YbPatch, radii_count, 24);
YB_AT(YbPatch, radii, 28);

YB_SIZE(YbCloudRead, 32);
YB_AT(YbCloudRead, answer, 0);
YB_AT(YbCloudRead, detail, 8);
YB_AT(YbCloudRead, radius, 16);
YB_AT(YbCloudRead, count, 24);

YB_SIZE(YbStlWritten, 24);
YB_AT(YbStlWritten, answer, 0);
YB_AT(YbStlWritten, detail, 8);
YB_AT(YbStlWritten, length, 16);

YB_SIZE(YbStlRead, 24);
YB_AT(YbStlRead, answer, 0);
YB_AT(YbStlRead, detail, 8);
YB_AT(YbStlRead, faces, 16);
YB_SIZE(YbOrdered, 32);
YB_AT(YbOrdered, answer, 0);
YB_AT(YbOrdered, detail, 8);
YB_AT(YbOrdered, faces, 16);
YB_AT(YbOrdered, seeds, 24);

YB_SIZE(YbSeasonPatch, 16);
YB_AT(YbSeasonPatch, number, 0);
YB_AT(YbSeasonPatch, scanned, 4);
YB_AT(YbSeasonPatch, covered, 8);
YB_AT(YbSeasonPatch, faces, 12);

YB_SIZE(YbTally, 72);
YB_AT(YbTally, patches, 0);
YB_AT(YbTally, faces, 8);
YB_AT(YbTally, face_squares, 16);
YB_AT(YbTally, scanned, 24);
YB_AT(YbTally, covered, 32);
YB_AT(YbTally, best, 40);
YB_AT(YbTally, worst, 56);

YB_SIZE(YbFraction, 16);
YB_AT(YbFraction, numerator, 0);
YB_AT(YbFraction, denominator, 8);

YB_SIZE(YbFigures, 128);
YB_AT(YbFigures, answer, 0);
YB_AT(YbFigures, patches, 8);
YB_AT(YbFigures, mean, 16);
YB_AT(YbFigures, variance, 32);
YB_AT(YbFigures, coverage, 48);
YB_AT(YbFigures, best, 64);
YB_AT(YbFigures, worst, 80);
YB_AT(YbFigures, best_coverage, 96);
YB_AT(YbFigures, worst_coverage, 112);

YB_SIZE(YbVerdict, 16);
YB_AT(YbVerdict, answer, 0);
YB_AT(YbVerdict, detail, 4);
YB_AT(YbVerdict, kind, 8);
YB_AT(YbVerdict, measured, 12);
YB_SIZE(YbIndexed, 8);
YB_AT(YbIndexed, answer, 0);
YB_AT(YbIndexed, detail, 4);

YB_SIZE(YbBelongs, 12);
YB_AT(YbBelongs, answer, 0);
YB_AT(YbBelongs, detail, 4);
YB_AT(YbBelongs, belongs, 8);

YB_SIZE(YbNearest, 16);
YB_AT(YbNearest, answer, 0);
YB_AT(YbNearest, detail, 4);
YB_AT(YbNearest, point, 8);
YB_AT(YbNearest, distance, 12);

YB_SIZE(YbSearched, 16);
YB_AT(YbSearched, answer, 0);
YB_AT(YbSearched, detail, 8);

#undef YB_SIZE
#undef YB_AT
#undef YB_ASSERT
#undef YB_NODISCARD

#ifdef __cplusplus
}
#endif

#endif
