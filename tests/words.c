/* What the header says in words that callers act on, tried: each check fails where the words were false. */
#include "yarrowbleat.h"

#include <math.h>
#include <stdio.h>
#include <stdlib.h>
#include <string.h>

static int failures;

static void check(int line, const char *what, bool good) {
    if (good) return;
    printf("words.c:%d: %s\n", line, what);
    failures++;
}
#define CHECK(fact) check(__LINE__, #fact, fact)

static uint32_t words[YB_WORDS(YB_MAX_POINTS)], faces[YB_FACE_NUMBERS], origins[YB_ORIGIN_NUMBERS];
static float floats[YB_FLOATS(YB_MAX_POINTS)];

static YbPatch lay(const float *points, size_t n, YbBallPivotingConfig settings) {
    return yb_reconstruct_with_normals(points, 3 * n, points, 3 * n, settings, faces, YB_FACE_NUMBERS, words,
                                       YB_WORDS(YB_MAX_POINTS), floats, YB_FLOATS(YB_MAX_POINTS));
}

/* YB_STL_CORNERS numbers are enough for a file of any number of facets, and one fewer are too few. */
static void corners(void) {
    const float points[9] = {0, 0, 0, 1, 0, 0, 0, 1, 0};
    const uint32_t three[15] = {0, 1, 2, 0, 1, 2, 0, 1, 2, 0, 1, 2, 0, 1, 2};
    for (size_t n = 0; n <= 5; n++) {
        size_t length = YB_STL_BYTES(n), room = YB_STL_CORNERS(length);
        uint8_t *bytes = malloc(length);
        float *read = malloc(room * sizeof *read + 1);
        CHECK(yb_write_stl(points, 9, three, 3 * n, bytes, length).answer == YB_ACCEPTED);
        YbStlRead r = yb_read_stl(bytes, length, read, room);
        CHECK(r.answer == YB_ACCEPTED && r.faces == n && room == 9 * n);
        CHECK(n == 0 || yb_read_stl(bytes, length, read, room - 1).answer == YB_OUTPUT_TOO_SHORT);
        free(bytes), free(read);
    }
    CHECK(YB_STL_CORNERS(0) == 0 && YB_STL_CORNERS(83) == 0 && YB_STL_CORNERS(84) == 0);
}

/* 15 is of the triples that were tried alone: here three near points lie behind a thousand and one lone ones. */
static void none_close(void) {
    static float points[3 * 1004];
    for (int i = 0; i < 1001; i++) points[3 * i] = -9000 + 10 * (float)(i % 500), points[3 * i + 1] = 100 * (float)(i / 500);
    for (int i = 0; i < 3; i++) points[3 * (1001 + i)] = 9000, points[3 * (1001 + i) + i % 2] += (float)i * 0.3f;
    YbPatch r = lay(points, 1004, yb_default_config(0.5f));
    CHECK(r.answer == YB_NONE_CLOSE);
    CHECK(strstr(yb_answer_text(YB_NONE_CLOSE), "close enough") != NULL);
    CHECK(lay(points + 3 * 1001, 3, yb_default_config(0.5f)).answer == YB_ACCEPTED);
}

/* A face's first two points are an edge of its parent: as laid in the same direction, turned in the other one. */
static void parents(void) {
    const float square[12] = {0, 0, 0, 1, 0, 0, 0, 1, 0, 1, 1, 0};
    for (int turned = 0; turned < 2; turned++) {
        YbPatch r = yb_reconstruct_with_origins(square, 12, square, 12, yb_default_config(1), turned, faces,
                                                YB_FACE_NUMBERS, origins, YB_ORIGIN_NUMBERS, words,
                                                YB_WORDS(YB_MAX_POINTS), floats, YB_FLOATS(YB_MAX_POINTS));
        CHECK(r.answer == YB_ACCEPTED && r.faces == 2 && origins[2] == 0);
        uint32_t a = faces[3 + turned], b = faces[4 - turned];
        CHECK((faces[0] == a && faces[1] == b) || (faces[1] == a && faces[2] == b) || (faces[2] == a && faces[0] == b));
    }
}

/* max_edge_factor limits the edge ratio times the root of the area, not an edge: edges of four radii pass at 3. */
static void edges(void) {
    YbTriangleQuality q = yb_compute_triangle_quality(0, 0, 0, 4, 0, 0, 2, 3.4641016f, 0);
    CHECK(yb_is_triangle_acceptable(q, 1, 0, 0.1f, 3));
    CHECK(q.edge_ratio * sqrtf(q.area) <= 3);
    q = yb_compute_triangle_quality(0, 0, 0, 5, 0, 0, 2.5f, 4.330127f, 0);
    CHECK(!yb_is_triangle_acceptable(q, 1, 0, 0.1f, 3) && q.edge_ratio * sqrtf(q.area) > 3);
    CHECK(fabsf(q.quality_score - 1) < 1e-5f);
}

static void distances(void) {
    CHECK(yb_distance(1, 2, 3, 1, 2, 3) == 0);
    CHECK(isnan(yb_distance(INFINITY, 0, 0, INFINITY, 0, 0)));
    CHECK(isinf(yb_compute_circumradius(0, 0, 0, 1, 0, 0, 2, 0, 0)));
    CHECK(isinf(yb_compute_circumradius(0, 0, 0, 1e-5f, 0, 0, 0, 1e-5f, 0)));
    CHECK(isfinite(yb_compute_circumradius(0, 0, 0, 1, 0, 0, 0, 1, 0)));
}

/* Without adaptive radii the plain path runs: no radii, no seeds, and 18 for a turned patch. */
static void plain(void) {
    const float triangle[9] = {0, 0, 0, 1, 0, 0, 0, 1, 0};
    YbBallPivotingConfig c = yb_default_config(1);
    c.adaptive_radius = false;
    YbPatch r = lay(triangle, 3, c);
    CHECK(r.answer == YB_ACCEPTED && r.seeds == 0 && r.radii_count == 0);
    r = yb_reconstruct_with_origins(triangle, 9, triangle, 9, c, true, faces, YB_FACE_NUMBERS, origins,
                                    YB_ORIGIN_NUMBERS, words, YB_WORDS(YB_MAX_POINTS), floats,
                                    YB_FLOATS(YB_MAX_POINTS));
    CHECK(r.answer == YB_TURNED_PLAIN);
}

/* Of a bool's stray byte either answer may come, and no other; settings that memset filled are refused whatever the byte. */
static void bools(void) {
    const float triangle[9] = {0, 0, 0, 1, 0, 0, 0, 1, 0};
    const YbBallPivotingConfig given = yb_default_config(1);
    YbPatch either[2];
    for (int byte = 0; byte < 256; byte++) {
        YbBallPivotingConfig c = given;
        memset((char *)&c + offsetof(YbBallPivotingConfig, adaptive_radius), byte, 1);
        YbPatch r = lay(triangle, 3, c);
        if (byte < 2) either[byte] = r;
        CHECK(byte == 0 || !memcmp(&r, &either[0], sizeof r) || !memcmp(&r, &either[1], sizeof r));
        memset(&c, byte, sizeof c);
        CHECK(lay(triangle, 3, c).answer == YB_SETTING);
    }
    CHECK(either[0].radii_count == 0 && either[1].radii_count > 0);
}

/* 7 and 9 name the slice that is too short. */
static void short_slices(void) {
    CHECK(strstr(yb_answer_text(YB_WORK), "work slice") && strstr(yb_answer_text(YB_FACES), "face slice"));
}

int main(void) {
    corners();
    none_close();
    parents();
    edges();
    distances();
    plain();
    bools();
    short_slices();
    if (failures == 0) puts("words: every check passed");
    return failures != 0;
}
