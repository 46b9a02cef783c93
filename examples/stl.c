/* Reads a cloud file, lays a patch over it, and writes the patch as a binary STL file, which a viewer opens. */
#include "yarrowbleat.h"

#include <stdio.h>
#include <stdlib.h>

#define N YB_MAX_POINTS

static uint8_t bytes[1 << 19];
static float points[3 * N], normals[3 * N], floats[YB_FLOATS(N)];
static uint32_t faces[YB_FACE_NUMBERS], words[YB_WORDS(N)];
static uint8_t stl[YB_STL_BYTES(YB_FACE_NUMBERS / 3)];

static void fail(const char *why) {
    fprintf(stderr, "%s\n", why);
    exit(1);
}

static void accept(uint32_t answer, size_t detail) {
    if (answer == YB_ACCEPTED) return;
    fprintf(stderr, "refused: %s (%u, %zu)\n", yb_answer_text(answer), (unsigned)answer, detail);
    exit(1);
}

int main(int argc, char **argv) {
    if (!yb_check_layout()) fail("the library is not the one of the header");
    if (argc != 3) fail("usage: stl CLOUD.csv PATCH.stl");
    FILE *in = fopen(argv[1], "rb");
    size_t length = in ? fread(bytes, 1, sizeof bytes, in) : 0;
    if (!in || !feof(in)) fail("the file can't be read whole");
    fclose(in);

    YbCloudRead cloud = yb_read_cloud(bytes, length, points, 3 * N, normals, 3 * N);
    accept(cloud.answer, cloud.detail);
    size_t numbers = 3 * cloud.count;
    YbPatch patch =
        yb_reconstruct_with_normals(points, numbers, normals, numbers, yb_default_config(cloud.radius), faces,
                                    YB_FACE_NUMBERS, words, YB_WORDS(N), floats, YB_FLOATS(N));
    accept(patch.answer, patch.detail);
    YbStlWritten written = yb_write_stl(points, numbers, faces, 3 * (size_t)patch.faces, stl, sizeof stl);
    accept(written.answer, written.detail);

    FILE *out = fopen(argv[2], "wb");
    if (!out || fwrite(stl, 1, written.length, out) != written.length || fclose(out)) fail("the file can't be written");
    return 0;
}
