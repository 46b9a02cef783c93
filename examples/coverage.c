/* Reads a cloud file, lays a patch over it, and says how much of the wall was reached, and which points were not. */
#include "yarrowbleat.h"

#include <stdio.h>
#include <stdlib.h>

#define N YB_MAX_POINTS

static uint8_t bytes[1 << 19];
static float points[3 * N], normals[3 * N], floats[YB_FLOATS(N)];
static uint32_t faces[YB_FACE_NUMBERS], words[YB_WORDS(N)], reached[N];

static void accept(uint32_t answer, size_t detail) {
    if (answer == YB_ACCEPTED) return;
    fprintf(stderr, "refused: %s (%u, %zu)\n", yb_answer_text(answer), (unsigned)answer, detail);
    exit(1);
}

int main(int argc, char **argv) {
    if (!yb_check_layout()) {
        fputs("the library is not the one of the header\n", stderr);
        return 1;
    }
    FILE *file = argc > 1 ? fopen(argv[1], "rb") : stdin;
    size_t length = file ? fread(bytes, 1, sizeof bytes, file) : 0;
    if (!file || !feof(file)) {
        fputs("the file can't be read whole\n", stderr);
        return 1;
    }
    fclose(file);

    YbCloudRead cloud = yb_read_cloud(bytes, length, points, 3 * N, normals, 3 * N);
    accept(cloud.answer, cloud.detail);
    size_t numbers = 3 * cloud.count;
    YbPatch patch =
        yb_reconstruct_with_normals(points, numbers, normals, numbers, yb_default_config(cloud.radius), faces,
                                    YB_FACE_NUMBERS, words, YB_WORDS(N), floats, YB_FLOATS(N));
    accept(patch.answer, patch.detail);

    size_t count = yb_mark_reached(faces, 3 * (size_t)patch.faces, reached, cloud.count);
    printf("faces: %u\n", (unsigned)patch.faces);
    printf("reached: %zu of %zu points\n", count, cloud.count);
    printf("not reached:");
    for (size_t point = 0; point < cloud.count; point++)
        if (!reached[point]) printf(" %zu", point);
    printf("\n");
    return 0;
}
