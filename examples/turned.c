/* Reads a cloud file, lays a patch over it that faces one way, and prints each face with its parent and its radius. */
#include "yarrowbleat.h"

#include <stdio.h>
#include <stdlib.h>

#define N YB_MAX_POINTS

static uint8_t bytes[1 << 19];
static float points[3 * N], normals[3 * N], floats[YB_FLOATS(N)];
static uint32_t faces[YB_FACE_NUMBERS], origins[YB_ORIGIN_NUMBERS], words[YB_WORDS(N)];

static void fail(const char *why) {
    fprintf(stderr, "%s\n", why);
    exit(1);
}

static void accept(uint32_t answer, size_t detail) {
    if (answer == YB_ACCEPTED) return;
    fprintf(stderr, "refused: %s (%u, %zu)\n", yb_answer_text(answer), (unsigned)answer, detail);
    exit(1);
}

int main(int argc, char **argv) {
    if (!yb_check_layout()) fail("the library is not the one of the header");
    if (argc != 2) fail("usage: turned CLOUD.csv");
    FILE *in = fopen(argv[1], "rb");
    size_t length = in ? fread(bytes, 1, sizeof bytes, in) : 0;
    if (!in || !feof(in)) fail("the file can't be read whole");
    fclose(in);

    YbCloudRead cloud = yb_read_cloud(bytes, length, points, 3 * N, normals, 3 * N);
    accept(cloud.answer, cloud.detail);
    size_t numbers = 3 * cloud.count;
    YbPatch patch = yb_reconstruct_with_origins(points, numbers, normals, numbers, yb_default_config(cloud.radius),
                                                true, faces, YB_FACE_NUMBERS, origins, YB_ORIGIN_NUMBERS, words,
                                                YB_WORDS(N), floats, YB_FLOATS(N));
    accept(patch.answer, patch.detail);
    for (uint32_t face = 0; face < patch.faces; face++) {
        const uint32_t *points_of = faces + 3 * (size_t)face, *origin = origins + 2 * (size_t)face;
        printf("face %u: %u, %u, %u, from face %u at radius %.3f\n", (unsigned)face, (unsigned)points_of[0],
               (unsigned)points_of[1], (unsigned)points_of[2], (unsigned)origin[0], patch.radii[origin[1]]);
    }
    return 0;
}
