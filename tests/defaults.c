/* The default settings as C gets them, word by word, at a few radii. */
#include "yarrowbleat.h"

#include <stdio.h>
#include <string.h>

static void words(const float *from, int count) {
    for (int i = 0; i < count; i++) {
        uint32_t word;
        memcpy(&word, from + i, sizeof word);
        printf("%08x ", (unsigned)word);
    }
}

int main(void) {
    const float radii[] = {0.1f, 0.001f, 1.0f, 2.5f, 1000.0f};
    for (int i = 0; i < 5; i++) {
        YbBallPivotingConfig c = yb_default_config(radii[i]);
        words(&c.radius, 1);
        words(c.additional_radii, 8);
        printf("%08x %08x ", (unsigned)c.additional_count, (unsigned)c.adaptive_radius);
        words(c.adaptive_percentiles, 8);
        printf("%08x ", (unsigned)c.percentile_count);
        words(&c.quality_threshold, 1);
        words(&c.max_edge_factor, 1);
        words(&c.min_triangle_area, 1);
        printf("%08x ", (unsigned)c.use_spatial_index);
        words(&c.spatial_cell_factor, 1);
        printf("%08x ", (unsigned)c.frontier_rule);
        printf("\n");
    }
    return 0;
}
