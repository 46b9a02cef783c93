/* How much stack each call takes, a line a call: its name and bytes. Each runs on a stack of its own that was painted. */
#include "yarrowbleat.h"

#include <math.h>
#include <stdio.h>
#include <stdlib.h>
#include <string.h>
#include <ucontext.h>

#define N 4096
#define STACK (1 << 20)
#define PAINT 0x5c

static float points[3 * N], normals[3 * N], spots[3 * 64], floats[YB_FLOATS(N)], corners[9 * N];
static uint32_t words[YB_WORDS(N)], faces[YB_FACE_NUMBERS], origins[YB_ORIGIN_NUMBERS], numbers[YB_INDEX(N)], found[N];
static uint8_t bytes[YB_STL_BYTES(N)], text[64 * N];
static YbPatch patch;
static YbTally tally;
static size_t text_len;

/* Each call, with all that it needs in the variables above. */
static void estimate(void) {
    if (yb_estimate_optimal_radius(points, 3 * N, 0.5f, words, YB_WORDS(N), floats, YB_FLOATS(N)).answer) abort();
}
static YbBallPivotingConfig settings(void) {
    YbBallPivotingConfig c = yb_default_config(points[3 * N - 1] < 0 ? 0.3f : 1.5f);
    return c;
}
static void reconstruct(void) {
    patch = yb_reconstruct_with_normals(points, 3 * N, normals, 3 * N, settings(), faces, YB_FACE_NUMBERS, words,
                                        YB_WORDS(N), floats, YB_FLOATS(N));
}
static void reconstruct_origins(void) {
    patch = yb_reconstruct_with_origins(points, 3 * N, normals, 3 * N, settings(), true, faces, YB_FACE_NUMBERS,
                                        origins, YB_ORIGIN_NUMBERS, words, YB_WORDS(N), floats, YB_FLOATS(N));
}
static void read_cloud(void) {
    float p[9], n[9];
    if (yb_read_cloud(text, text_len, p, 9, n, 9).answer != YB_ROOM) abort();
}
static void mark(void) { yb_mark_reached(faces, 3 * patch.faces, found, N); }
static void write_stl(void) {
    if (yb_write_stl(points, 3 * N, faces, 3 * patch.faces, bytes, sizeof bytes).answer) abort();
}
static void read_stl(void) {
    size_t length = YB_STL_BYTES(patch.faces);
    if (yb_read_stl(bytes, length, corners, YB_STL_CORNERS(length)).answer) abort();
}
static void judge(void) {
    if (yb_judge_triangle(points, 3 * N, normals, 3 * N, settings(), 0, 1, 2).answer) abort();
}
static void order(void) {
    size_t length = 0;
    for (uint32_t f = 0; f < patch.faces; f++)
        length += (size_t)sprintf((char *)text + length, "%u,%u,%u\n", faces[3 * f], faces[3 * f + 1], faces[3 * f + 2]);
    text_len = length;
}
static void order_patch(void) {
    if (yb_order_patch(text, text_len, N, found, N, words, YB_WORDS(N), floats, YB_FLOATS(N)).answer) abort();
}
static void order_faces(void) {
    if (yb_order_faces(faces, 3 * patch.faces, N, found, N, words, YB_WORDS(N), floats, YB_FLOATS(N)).answer) abort();
}
static void tally_add(void) {
    YbSeasonPatch p = {1, 10, 9, 8};
    if (yb_tally_add(&tally, p)) abort();
}
static void tally_figures(void) {
    if (yb_tally_figures(&tally).answer) abort();
}
static void build_index(void) {
    if (yb_build_index(points, 3 * N, numbers, YB_INDEX(N), words, YB_WORDS(N), floats, YB_FLOATS(N)).answer) abort();
}
static void index_belongs(void) {
    if (!yb_index_belongs(points, 3 * N, numbers, YB_INDEX(N), words, YB_WORDS(N), floats, YB_FLOATS(N)).belongs)
        abort();
}
static void nearest_point(void) {
    if (yb_nearest_point(points, 3 * N, 1, 2, 3, numbers, YB_INDEX(N), words, YB_WORDS(N), floats, YB_FLOATS(N)).answer)
        abort();
}
static void nearest_points(void) {
    if (yb_nearest_points(points, 3 * N, spots, 3 * 64, numbers, YB_INDEX(N), found, N, words, YB_WORDS(N), floats,
                          YB_FLOATS(N))
            .answer)
        abort();
}

static void nearest_distances(void) {
    if (yb_nearest_distances(points, 3 * N, spots, 3 * 64, numbers, YB_INDEX(N), found, N, corners, 64, words,
                             YB_WORDS(N), floats, YB_FLOATS(N))
            .answer)
        abort();
}

static ucontext_t here, there;
static uint8_t stack[STACK] __attribute__((aligned(64)));

/* The bytes of a painted stack that a call left changed, its caller's few among them. */
static size_t taken(void (*call)(void)) {
    memset(stack, PAINT, STACK);
    getcontext(&there);
    there.uc_stack.ss_sp = stack;
    there.uc_stack.ss_size = STACK;
    there.uc_link = &here;
    makecontext(&there, call, 0);
    swapcontext(&here, &there);
    size_t clean = 0;
    while (clean < STACK && stack[clean] == PAINT) clean++;
    return STACK - clean;
}

static void say(const char *name, void (*call)(void)) { printf("%s %zu\n", name, taken(call)); }

/* A wall, a line of near points, clusters, one spot 4,096 times: what the searches recurse over differs. */
static void cloud(int kind) {
    for (int i = 0; i < N; i++) {
        float a = (float)(i % 64), b = (float)(i / 64);
        float *p = points + 3 * i;
        p[0] = kind == 0 ? 10 * cosf(a / 10) : kind == 1 ? (float)i * 0.001f : kind == 2 ? b + a * 0.0001f : 1;
        p[1] = kind == 0 ? 10 * sinf(a / 10) : kind == 2 ? a * a * 0.00001f : 1;
        p[2] = kind == 0 ? b : kind == 2 ? 0.001f * (float)((i * 7919) % 101) : 1;
        normals[3 * i + 2] = 1;
    }
    for (int i = 0; i < 3 * 64; i++) spots[i] = (float)(i % 13);
}

int main(void) {
    for (int kind = 0; kind < 4; kind++) {
        cloud(kind);
        say("yb_estimate_optimal_radius", estimate);
        say("yb_reconstruct_with_origins", reconstruct_origins);
        say("yb_reconstruct_with_normals", reconstruct);
        say("yb_build_index", build_index);
        say("yb_index_belongs", index_belongs);
        say("yb_nearest_point", nearest_point);
        say("yb_nearest_points", nearest_points);
        say("yb_nearest_distances", nearest_distances);
        say("yb_judge_triangle", judge);
        say("yb_mark_reached", mark);
        say("yb_write_stl", write_stl);
        say("yb_read_stl", read_stl);
        if (kind == 0) {
            order();
            say("yb_order_patch", order_patch);
            say("yb_order_faces", order_faces);
        }
    }
    text_len = (size_t)sprintf((char *)text, "1\n1,2,3,0,0,1\n-1.25,2.5,99999.999999,0,0,1\n1,2,3,0,0,1\n1,2,3,0,0,1\n");
    say("yb_read_cloud", read_cloud);
    say("yb_tally_add", tally_add);
    say("yb_tally_figures", tally_figures);
    return 0;
}
