/* What each call takes on a wall of 4,096 points, the best of nine. Run by hand, for the header; the gate builds it. */
#define _POSIX_C_SOURCE 199309L
#include "yarrowbleat.h"

#include <math.h>
#include <stdio.h>
#include <time.h>

#define N 4096
static float points[3 * N], normals[3 * N], floats[YB_FLOATS(N)], corners[9 * N];
static float read_points[3 * N], read_normals[3 * N];
static uint32_t words[YB_WORDS(N)], faces[YB_FACE_NUMBERS], origins[YB_ORIGIN_NUMBERS], numbers[YB_INDEX(N)], found[N];
static uint8_t bytes[YB_STL_BYTES(N)], text[80 * N];

static double microseconds(void) {
    struct timespec t;
    clock_gettime(CLOCK_THREAD_CPUTIME_ID, &t);
    return (double)t.tv_sec * 1e6 + (double)t.tv_nsec / 1e3;
}

/* An answer other than 0 is shown, since a refusal takes another time. */
#define TAKE(name, call)                                                        \
    do {                                                                        \
        double best = 1e18;                                                     \
        uint32_t answer = 0;                                                    \
        for (int turn = 0; turn < 9; turn++) {                                  \
            double start = microseconds();                                      \
            answer = (call).answer;                                             \
            double took = microseconds() - start;                               \
            if (took < best) best = took;                                       \
        }                                                                       \
        printf("%-28s %8.1f us, answer %u\n", name, best, (unsigned)answer);    \
    } while (0)

#define WORK words, YB_WORDS(N), floats, YB_FLOATS(N)

int main(void) {
    size_t length = (size_t)sprintf((char *)text, "2.5\n");
    for (int i = 0; i < N; i++) {
        float turn = (float)(i % 64) * 0.0982f;
        points[3 * i] = 10 * cosf(turn) + 0.01f * (float)((i * 7919) % 13);
        points[3 * i + 1] = 10 * sinf(turn) + 0.01f * (float)((i * 7907) % 11);
        points[3 * i + 2] = (float)(i / 64) * 0.98f;
        normals[3 * i + 2] = 1;
        length += (size_t)sprintf((char *)text + length, "%.6f,%.6f,%.6f,0,0,1\n", (double)points[3 * i],
                                  (double)points[3 * i + 1], (double)points[3 * i + 2]);
    }
    YbBallPivotingConfig settings = yb_default_config(2.5f);
    YbPatch patch = yb_reconstruct_with_normals(points, 3 * N, normals, 3 * N, settings, faces, YB_FACE_NUMBERS, WORK);
    size_t laid = 3 * (size_t)patch.faces, file = YB_STL_BYTES(patch.faces);
    TAKE("yb_estimate_optimal_radius", yb_estimate_optimal_radius(points, 3 * N, 0.5f, WORK));
    TAKE("yb_reconstruct_with_normals",
         yb_reconstruct_with_normals(points, 3 * N, normals, 3 * N, settings, faces, YB_FACE_NUMBERS, WORK));
    TAKE("yb_reconstruct_with_origins",
         yb_reconstruct_with_origins(points, 3 * N, normals, 3 * N, settings, true, faces, YB_FACE_NUMBERS, origins,
                                     YB_ORIGIN_NUMBERS, WORK));
    TAKE("yb_read_cloud", yb_read_cloud(text, length, read_points, 3 * N, read_normals, 3 * N));
    TAKE("yb_write_stl", yb_write_stl(points, 3 * N, faces, laid, bytes, sizeof bytes));
    TAKE("yb_read_stl", yb_read_stl(bytes, file, corners, YB_STL_CORNERS(file)));
    TAKE("yb_judge_triangle", yb_judge_triangle(points, 3 * N, normals, 3 * N, settings, 0, 1, 2));
    TAKE("yb_order_faces", yb_order_faces(faces, laid, N, found, N, WORK));
    TAKE("yb_build_index", yb_build_index(points, 3 * N, numbers, YB_INDEX(N), WORK));
    TAKE("yb_nearest_point", yb_nearest_point(points, 3 * N, 1, 2, 3, numbers, YB_INDEX(N), WORK));
    TAKE("yb_nearest_points, 4,096",
         yb_nearest_points(points, 3 * N, points, 3 * N, numbers, YB_INDEX(N), found, N, WORK));
    return 0;
}
