/* Misuse from outside ends in a refusal, and a refusal leaves in each slice what the header says. */
#include "yarrowbleat.h"

#include <math.h>
#include <stdio.h>
#include <string.h>

#define N 3
#define OLD 0xa5 /* every byte of a lent slice before a call */

static const float triangle[3 * N] = {0, 0, 0, 1, 0, 0, 0, 1, 0};
static uint32_t faces[6], origins[5], words[YB_WORDS(N)];
static float floats[YB_FLOATS(N)];
static int failures;

static void check(int line, const char *what, bool good) {
    if (good) return;
    printf("misuse.c:%d: %s\n", line, what);
    failures++;
}
#define CHECK(fact) check(__LINE__, #fact, fact)

/* True if every byte of a slice is this one. */
static bool all(const void *slice, size_t size, uint8_t byte) {
    const uint8_t *bytes = slice;
    for (size_t i = 0; i < size; i++)
        if (bytes[i] != byte) return false;
    return true;
}

static void fill(void) {
    memset(faces, OLD, sizeof faces);
    memset(origins, OLD, sizeof origins);
    memset(words, OLD, sizeof words);
    memset(floats, OLD, sizeof floats);
}

static bool work_is(uint8_t byte) { return all(words, sizeof words, byte) && all(floats, sizeof floats, byte); }

/* A call that differs from a good one in what its arguments say. */
typedef struct {
    const float *points, *normals;
    size_t points_len, normals_len, faces_len, words_len, floats_len;
    YbBallPivotingConfig settings;
} Call;

static Call good(void) {
    Call c = {triangle, triangle, 3 * N, 3 * N, 6, YB_WORDS(N), YB_FLOATS(N), yb_default_config(1)};
    return c;
}

static YbPatch lay(Call c) {
    fill();
    return yb_reconstruct_with_normals(c.points, c.points_len, c.normals, c.normals_len, c.settings,
                                       c.faces_len ? faces : NULL, c.faces_len, c.words_len ? words : NULL,
                                       c.words_len, c.floats_len ? floats : NULL, c.floats_len);
}

/* A refusal by the checks up to 7: the number, the detail, nothing else, and no slice touched. */
static bool refuses(Call c, uint32_t answer, uint32_t detail) {
    YbPatch r = lay(c);
    const size_t rest = offsetof(YbPatch, faces);
    bool told = r.answer == answer && r.detail == detail && all((const char *)&r + rest, sizeof r - rest, 0);
    return told && all(faces, sizeof faces, OLD) && work_is(OLD);
}

static void lengths(void) {
    Call c = good();
    c.points = NULL, c.points_len = 0;
    CHECK(refuses(c, 1, 0));
    c.normals = NULL, c.normals_len = 0;
    CHECK(refuses(c, 1, 0));
    c.faces_len = c.words_len = c.floats_len = 0;
    CHECK(refuses(c, 1, 0));
    c = good(), c.points_len = 4;
    CHECK(refuses(c, 2, 0));
    c = good(), c.normals_len = 6;
    CHECK(refuses(c, 2, 0));
    c = good(), c.normals = NULL, c.normals_len = 0;
    CHECK(refuses(c, 2, 0));
    c = good(), c.words_len--;
    CHECK(refuses(c, 7, 0));
    c = good(), c.words_len = 0;
    CHECK(refuses(c, 7, 0));
    c = good(), c.floats_len--;
    CHECK(refuses(c, 7, 0));
    c = good(), c.floats_len = 0;
    CHECK(refuses(c, 7, 0));
    static float many[3 * (YB_MAX_POINTS + 1)];
    c = good(), c.points = c.normals = many, c.points_len = c.normals_len = 3 * (YB_MAX_POINTS + 1);
    CHECK(refuses(c, 3, 0));
}

static void numbers(void) {
    const float bad[] = {NAN, INFINITY, -INFINITY, 10001};
    for (int i = 0; i < 4; i++) {
        float wrong[3 * N];
        memcpy(wrong, triangle, sizeof wrong);
        wrong[5] = bad[i];
        Call c = good();
        c.points = wrong;
        CHECK(refuses(c, 4, 1));
        c = good(), c.normals = wrong;
        CHECK(i == 3 ? lay(c).answer == 0 : refuses(c, 4, 1));
    }
}

/* The defaults come through as they are, and the slots past the counts are zeros. */
static void defaults(void) {
    const YbBallPivotingConfig d = yb_default_config(0.5f);
    const float radii[8] = {0.05f, 0.15f, 0.2f}, percentiles[8] = {0.25f, 0.5f, 0.75f, 0.9f};
    CHECK(d.radius == 0.5f && d.additional_count == 3 && d.adaptive_radius && d.percentile_count == 4);
    CHECK(memcmp(d.additional_radii, radii, sizeof radii) == 0);
    CHECK(memcmp(d.adaptive_percentiles, percentiles, sizeof percentiles) == 0);
    CHECK(d.quality_threshold == 0.1f && d.max_edge_factor == 3 && d.min_triangle_area == 1e-8f);
    CHECK(d.use_spatial_index && d.spatial_cell_factor == 2 && d.frontier_rule == 1);
    CHECK(isnan(yb_default_config(NAN).radius));
}

/* Each setting has its own place in the struct: a bad one is told by its number. */
static void settings(void) {
    Call c = good();
    c.settings.radius = NAN;
    CHECK(refuses(c, 5, 1));
    for (int slot = 0; slot < 8; slot++) {
        c = good(), c.settings.additional_radii[slot] = NAN, c.settings.additional_count = 8;
        for (int other = 3; other < 8; other++)
            if (other != slot) c.settings.additional_radii[other] = 1;
        CHECK(refuses(c, 5, 2));
        c = good(), c.settings.adaptive_percentiles[slot] = -1, c.settings.percentile_count = 8;
        CHECK(refuses(c, 5, 3));
    }
    c = good(), c.settings.additional_count = 9;
    CHECK(refuses(c, 5, 2));
    c = good(), c.settings.additional_count = UINT32_MAX;
    CHECK(refuses(c, 5, 2));
    c = good(), c.settings.percentile_count = 9;
    CHECK(refuses(c, 5, 3));
    c = good(), c.settings.quality_threshold = -1;
    CHECK(refuses(c, 5, 4));
    c = good(), c.settings.max_edge_factor = NAN;
    CHECK(refuses(c, 5, 5));
    c = good(), c.settings.min_triangle_area = INFINITY;
    CHECK(refuses(c, 5, 6));
    c = good(), c.settings.spatial_cell_factor = 17;
    CHECK(refuses(c, 5, 7));
    c = good(), c.settings.frontier_rule = 0;
    CHECK(refuses(c, 5, 8));
    c = good(), c.settings.frontier_rule = 3;
    CHECK(refuses(c, 5, 8));
    c = good(), c.settings.frontier_rule = 2;
    CHECK(lay(c).answer == 0);
}

/* Face slices of length 0, 1 and 2 have no room for the one face; 3 have, and past the face nothing is written. */
static void face_slices(void) {
    for (size_t length = 0; length < 3; length++) {
        Call c = good();
        c.faces_len = length;
        YbPatch r = lay(c);
        CHECK(r.answer == 9 && r.detail == 0 && r.faces == 0 && r.radii_count == 0 && work_is(0));
        CHECK(all(faces, 4 * length, 0) && all(faces + length, sizeof faces - 4 * length, OLD));
    }
    Call c = good();
    c.faces_len = 3;
    YbPatch r = lay(c);
    CHECK(r.answer == 0 && r.faces == 1 && r.seeds == 1 && r.looks == 3 && r.pivots == 3 && r.radii_count > 0);
    CHECK(faces[0] == 0 && faces[1] == 1 && faces[2] == 2 && all(faces + 3, 12, OLD) && work_is(0));
    c = good(), c.points_len = c.normals_len = 6;
    r = lay(c);
    CHECK(r.answer == 8 && r.detail == 0 && r.faces == 0 && all(faces, sizeof faces, OLD) && work_is(0));
}

/* The two yes-or-no settings: each changes what becomes of the triangle. */
static void choices(void) {
    Call c = good();
    c.settings.adaptive_radius = false;
    YbPatch r = lay(c);
    CHECK(r.answer == 0 && r.faces == 1 && r.seeds == 0 && r.radii_count == 0 && faces[0] == 2 && faces[1] == 0);
    c = good(), c.settings.radius = 0.01f;
    CHECK(lay(c).answer == 15);
    c.settings.use_spatial_index = false;
    CHECK(lay(c).answer == 0);
}

static YbEstimate guess(const float *points, size_t length, float percentile, size_t words_len, size_t floats_len) {
    fill();
    return yb_estimate_optimal_radius(points, length, percentile, words_len ? words : NULL, words_len,
                                      floats_len ? floats : NULL, floats_len);
}

static void estimates(void) {
    const struct {
        const float *points;
        size_t length;
        float percentile;
        size_t words_len, floats_len;
        uint32_t answer, detail;
    } bad[] = {
        {NULL, 0, 0.5f, YB_WORDS(N), YB_FLOATS(N), 1, 0},       {NULL, 0, NAN, 0, 0, 1, 0},
        {triangle, 8, 0.5f, YB_WORDS(N), YB_FLOATS(N), 2, 0},   {triangle, 9, NAN, YB_WORDS(N), YB_FLOATS(N), 6, 0},
        {triangle, 9, 1.5f, YB_WORDS(N), YB_FLOATS(N), 6, 0},   {triangle, 9, 0.5f, 0, YB_FLOATS(N), 7, 0},
        {triangle, 9, 0.5f, YB_WORDS(N), YB_FLOATS(N) - 1, 7, 0},
    };
    for (size_t i = 0; i < sizeof bad / sizeof *bad; i++) {
        YbEstimate r = guess(bad[i].points, bad[i].length, bad[i].percentile, bad[i].words_len, bad[i].floats_len);
        CHECK(r.answer == bad[i].answer && r.detail == bad[i].detail && r.radius == 0 && work_is(OLD));
    }
    const float wrong[] = {0, 0, 0, 0, NAN, 0};
    YbEstimate r = guess(wrong, 6, 0.5f, YB_WORDS(N), YB_FLOATS(N));
    CHECK(r.answer == 4 && r.detail == 1 && r.radius == 0 && work_is(OLD));
    r = guess(triangle, 6, 0.5f, YB_WORDS(N), YB_FLOATS(N));
    CHECK(r.answer == 0 && r.detail == 0 && r.radius == 2.5f && work_is(0));
}

static YbCloudRead read_text(const char *text, float *points, size_t points_len, float *normals, size_t normals_len) {
    return yb_read_cloud((const uint8_t *)text, text ? strlen(text) : 0, points, points_len, normals, normals_len);
}

static void files(void) {
    const char *one = "0.5\n1,2,3,4,5,6\n";
    float p[4], n[4];
    memset(p, OLD, sizeof p), memset(n, OLD, sizeof n);
    YbCloudRead r = read_text(NULL, NULL, 0, NULL, 0);
    CHECK(r.answer == 10 && r.detail == 1 && r.radius == 0 && r.count == 0);
    r = read_text("1\n", NULL, 0, NULL, 0);
    CHECK(r.answer == 0 && r.detail == 0 && r.radius == 1 && r.count == 0);
    r = read_text("1\nnan,0,0,0,0,1\n", p, 4, n, 4);
    CHECK(r.answer == 10 && r.detail == 2 && r.count == 0 && all(p, sizeof p, OLD) && all(n, sizeof n, OLD));
    r = read_text(one, NULL, 0, NULL, 0);
    CHECK(r.answer == 11 && r.detail == 0 && r.count == 0);
    r = read_text(one, p, 4, n, 2);
    CHECK(r.answer == 11 && r.detail == 0 && all(p, sizeof p, OLD) && all(n, sizeof n, OLD));
    r = read_text(one, p, 4, n, 4);
    CHECK(r.answer == 0 && r.detail == 0 && r.radius == 0.5f && r.count == 1);
    CHECK(p[0] == 1 && p[1] == 2 && p[2] == 3 && n[0] == 4 && n[1] == 5 && n[2] == 6);
    CHECK(all(p + 3, 4, OLD) && all(n + 3, 4, OLD));
}

/* Marks: every entry is written, a number beyond the entries skipped, one that stands twice counted once. */
static void marks(void) {
    const uint32_t corners[] = {0, 2, 2, 4, UINT32_MAX};
    uint32_t reached[5];
    memset(reached, OLD, sizeof reached);
    CHECK(yb_mark_reached(corners, 5, reached, 4) == 2);
    CHECK(reached[0] == 1 && reached[1] == 0 && reached[2] == 1 && reached[3] == 0 && all(reached + 4, 4, OLD));
    CHECK(yb_mark_reached(NULL, 0, reached, 4) == 0 && all(reached, 16, 0) && all(reached + 4, 4, OLD));
    CHECK(yb_mark_reached(corners, 5, NULL, 0) == 0);
}

/* The library is the header's, and each answer has words. */
static void library(void) {
    CHECK(yb_check_layout() && yb_version() == YB_VERSION && yb_layout() == YB_LAYOUT);
    for (uint32_t answer = 0; answer < 40; answer++) CHECK(*yb_answer_text(answer) != 0);
    CHECK(strcmp(yb_answer_text(YB_ALL_TURNED_DOWN), "no triangle was found: all that were judged were turned down") == 0);
    CHECK(strcmp(yb_answer_text(25), yb_answer_text(UINT32_MAX)) == 0);
}

/* True if the tally gets this answer from both calls, no figures, and stays as it is. */
static bool damaged(YbTally tally, uint32_t answer) {
    const YbSeasonPatch patch = {1, 1, 1, 1};
    YbTally before = tally;
    YbFigures f = yb_tally_figures(&tally);
    const size_t rest = offsetof(YbFigures, patches);
    bool told = f.answer == answer && all((const char *)&f + rest, sizeof f - rest, 0);
    return told && yb_tally_add(&tally, patch) == answer && memcmp(&before, &tally, sizeof tally) == 0;
}

/* The tally's refusals in their order, and a season of three patches, two of them equally covered. */
static void tallies(void) {
    const YbSeasonPatch season[] = {{7, 4, 2, 3}, {8, 2, 1, 5}, {9, 4, 3, 4}};
    const YbSeasonPatch bad[] = {{1, 0, 0, 0}, {1, 4097, 0, 0}, {1, 5, 6, 0}, {1, 1, 0, 10001}};
    YbTally t;
    memset(&t, 0, sizeof t);
    memset(&t.best, OLD, sizeof t.best);
    memset(&t.worst, OLD, sizeof t.worst);
    CHECK(yb_tally_figures(&t).answer == 21);
    for (int i = 0; i < 3; i++) CHECK(yb_tally_add(&t, season[i]) == 0);
    YbTally before = t;
    for (int i = 0; i < 4; i++) CHECK(yb_tally_add(&t, bad[i]) == 20 && memcmp(&before, &t, sizeof t) == 0);
    YbFigures f = yb_tally_figures(&t);
    CHECK(f.answer == 0 && f.patches == 3 && f.mean.numerator == 4 && f.mean.denominator == 1);
    CHECK(f.variance.numerator == 2 && f.variance.denominator == 3);
    CHECK(f.coverage.numerator == 3 && f.coverage.denominator == 5);
    CHECK(f.best.number == 9 && f.best_coverage.numerator == 3 && f.best_coverage.denominator == 4);
    CHECK(f.worst.number == 7 && f.worst_coverage.numerator == 1 && f.worst_coverage.denominator == 2);

    t = before, t.patches = 100001;
    CHECK(damaged(t, 24));
    t = before, t.faces = 13;
    CHECK(damaged(t, 24));
    t = before, t.face_squares = 300000001;
    CHECK(damaged(t, 24));
    t = before, t.scanned = 2;
    CHECK(damaged(t, 24));
    t = before, t.covered = 11;
    CHECK(damaged(t, 24));
    t = before, t.best.scanned = 0;
    CHECK(damaged(t, 24) && yb_tally_add(&t, bad[0]) == 24);
    t = before, t.worst.faces = 10001;
    CHECK(damaged(t, 24));
    memset(&t, 0xff, sizeof t);
    CHECK(damaged(t, 24));
    t = before, t.patches = t.scanned = 100000;
    CHECK(yb_tally_add(&t, season[0]) == 19 && yb_tally_add(&t, bad[0]) == 20 && yb_tally_figures(&t).answer == 0);
}

static YbPatch trace(Call c, bool turned, size_t origins_len) {
    fill();
    return yb_reconstruct_with_origins(c.points, c.points_len, c.normals, c.normals_len, c.settings, turned,
                                       c.faces_len ? faces : NULL, c.faces_len, origins_len ? origins : NULL,
                                       origins_len, c.words_len ? words : NULL, c.words_len,
                                       c.floats_len ? floats : NULL, c.floats_len);
}

/* True if the number, no detail and nothing else came back. */
static bool only(YbPatch r, uint32_t answer) {
    const size_t rest = offsetof(YbPatch, detail);
    return r.answer == answer && all((const char *)&r + rest, sizeof r - rest, 0);
}

/* Origins: 9 if either slice is too short, 18 after it, and what each leaves. */
static void traced(void) {
    for (int turned = 0; turned < 2; turned++) {
        YbPatch r = trace(good(), turned, 5);
        CHECK(r.answer == 0 && r.faces == 1 && faces[0] == 0 && faces[1] == 1 && faces[2] == 2 && work_is(0));
        CHECK(origins[0] == 0 && origins[1] < r.radii_count && r.radii[origins[1]] == 1);
        CHECK(all(faces + 3, 12, OLD) && all(origins + 2, 12, OLD));
        for (size_t length = 0; length < 2; length++) {
            CHECK(only(trace(good(), turned, length), 9) && work_is(0) && all(faces, sizeof faces, 0));
            CHECK(all(origins, 4 * length, 0) && all(origins + length, sizeof origins - 4 * length, OLD));
        }
        Call c = good();
        c.faces_len = 2;
        CHECK(only(trace(c, turned, 5), 9) && work_is(0) && all(origins, sizeof origins, 0));
        CHECK(all(faces, 8, 0) && all(faces + 2, 16, OLD));
        c = good(), c.words_len--;
        CHECK(only(trace(c, turned, 5), 7) && work_is(OLD) && all(faces, sizeof faces, OLD) && all(origins, 20, OLD));
        c = good(), c.settings.min_triangle_area = 100;
        CHECK(only(trace(c, turned, 5), 16) && work_is(0) && all(faces, sizeof faces, OLD) && all(origins, 20, OLD));
    }
    Call c = good();
    c.settings.adaptive_radius = false;
    YbPatch r = trace(c, false, 5);
    CHECK(r.answer == 0 && r.faces == 1 && r.radii_count == 0 && origins[0] == 0 && origins[1] == 0);
    CHECK(only(trace(c, true, 5), 18) && work_is(0) && all(faces, sizeof faces, OLD) && all(origins, 20, OLD));
    CHECK(only(trace(c, true, 1), 9) && all(faces, sizeof faces, 0) && all(origins, 4, 0));
    c.faces_len = 2;
    CHECK(only(trace(c, true, 5), 9) && all(faces, 8, 0) && all(origins, 20, 0));
}

/* Faces as numbers: refusals in their order, and an order; null slices. */
static void orders(void) {
    static const uint32_t face[4] = {0, 1, 2, 0}, twice[3] = {0, 1, 1}, far[3] = {0, 1, 3};
    uint32_t order[2];
    memset(order, OLD, sizeof order);
    fill();
#define ORDER(list, list_len, points, room) \
    yb_order_faces(list, list_len, points, order, room, words, YB_WORDS(N), floats, YB_FLOATS(N)).answer
    CHECK(ORDER(face, 4, N, 2) == YB_LENGTHS && ORDER(face, 3, 4097, 2) == YB_TOO_MANY_POINTS);
    CHECK(ORDER(far, 3, N, 2) == YB_NO_SUCH_POINT && ORDER(twice, 3, N, 2) == YB_EQUAL_NUMBERS);
    CHECK(yb_order_faces(face, 3, N, order, 2, NULL, 0, NULL, 0).answer == YB_WORK);
    CHECK(work_is(OLD) && all(order, sizeof order, OLD));
    CHECK(ORDER(face, 3, N, 0) == YB_OUTPUT_TOO_SHORT && work_is(0) && all(order, sizeof order, OLD));
    CHECK(ORDER(face, 3, N, 2) == 0 && order[0] == 0 && all(order + 1, sizeof order[1], OLD));
    CHECK(ORDER(NULL, 0, 0, 0) == 0);
#undef ORDER
}

/* The nearest points with their distances: room in both slices, or nothing is written. */
static void distances(void) {
    uint32_t index[YB_INDEX(N)], found[2];
    float far[2];
    YbIndexed built = yb_build_index(triangle, 3 * N, index, YB_INDEX(N), words, YB_WORDS(N), floats, YB_FLOATS(N));
    CHECK(built.answer == 0);
#define NEAREST(spots, found_len, far_len) \
    yb_nearest_distances(triangle, 3 * N, triangle, spots, index, YB_INDEX(N), found, found_len, far, far_len, words, \
                         YB_WORDS(N), floats, YB_FLOATS(N)).answer
    memset(found, OLD, sizeof found);
    memset(far, OLD, sizeof far);
    CHECK(NEAREST(6, 1, 2) == YB_OUTPUT_TOO_SHORT && NEAREST(6, 2, 1) == YB_OUTPUT_TOO_SHORT);
    CHECK(NEAREST(5, 2, 2) == YB_LENGTHS && NEAREST(0, 0, 0) == 0);
    CHECK(all(found, sizeof found, OLD) && all(far, sizeof far, OLD));
    CHECK(NEAREST(3, 2, 2) == 0 && found[0] == 0 && far[0] == 0 && all(far + 1, sizeof far[1], OLD));
    index[0] ^= 1;
    CHECK(NEAREST(3, 2, 2) == YB_FOREIGN_INDEX);
#undef NEAREST
}

int main(void) {
    library();
    marks();
    lengths();
    numbers();
    defaults();
    settings();
    face_slices();
    traced();
    choices();
    estimates();
    files();
    tallies();
    orders();
    distances();
    printf("misuse: %d failures\n", failures);
    return failures != 0;
}
