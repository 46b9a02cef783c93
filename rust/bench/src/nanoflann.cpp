// nanoflann's tree over a cloud, for the benchmark alone.
#include <cstddef>
#include <cstdint>
#include <nanoflann.hpp>

struct Cloud {
    const float *points;
    size_t count;
    size_t kdtree_get_point_count() const { return count; }
    float kdtree_get_pt(size_t point, size_t axis) const { return points[3 * point + axis]; }
    template <class Box> bool kdtree_get_bbox(Box &) const { return false; }
};

using Tree = nanoflann::KDTreeSingleIndexAdaptor<nanoflann::L2_Simple_Adaptor<float, Cloud>, Cloud, 3, uint32_t>;

struct Side {
    Cloud cloud;
    Tree tree;
    Side(const float *points, size_t count)
        : cloud{points, count}, tree(3, cloud, nanoflann::KDTreeSingleIndexAdaptorParams(10)) {
        tree.buildIndex();
    }
};

extern "C" void *nano_build(const float *points, size_t count) { return new Side(points, count); }

extern "C" void nano_free(void *side) { delete static_cast<Side *>(side); }

extern "C" void nano_nearest(const void *side, const float *spots, size_t count, uint32_t *found) {
    const Tree &tree = static_cast<const Side *>(side)->tree;
    for (size_t i = 0; i < count; i++) {
        float square;
        tree.knnSearch(spots + 3 * i, 1, found + i, &square);
    }
}
