// Yarrowbleat for C++20: spans in, vectors out, and an exception for a refusal. yarrowbleat.h says what each call takes
// and answers. A Workspace is used by one thread at a time; everything else may be called by any number.
#pragma once

#include "yarrowbleat.h"

#include <algorithm>
#include <array>
#include <cstddef>
#include <cstdint>
#include <span>
#include <stdexcept>
#include <string>
#include <utility>
#include <vector>

namespace yarrowbleat {

using Point = std::array<float, 3>;
using Face = std::array<std::uint32_t, 3>;
using Points = std::span<const Point>;
using Settings = YbBallPivotingConfig;

// What the library refuses: the answer's number, its detail and its words.
class Refusal : public std::runtime_error {
public:
    Refusal(std::uint32_t number, std::size_t detail)
        : std::runtime_error(yb_answer_text(number)), number(number), detail(detail) {}

    std::uint32_t number;
    std::size_t detail;
};

// Call it once: it throws where the library is not the one of the header.
inline void check_layout() {
    if (!yb_check_layout()) throw std::runtime_error("yarrowbleat: the library is not the one of the header");
}

namespace detail {

// The numbers of a list of arrays, one behind the other.
template <class T, std::size_t N> const T *numbers(std::span<const std::array<T, N>> list) {
    static_assert(sizeof(std::array<T, N>) == N * sizeof(T));
    return list.empty() ? nullptr : list.front().data();
}

template <class T, std::size_t N> T *numbers(std::vector<std::array<T, N>> &list) {
    return list.empty() ? nullptr : list.front().data();
}

inline void accept(std::uint32_t answer, std::size_t detail) {
    if (answer != YB_ACCEPTED) throw Refusal(answer, detail);
}

// The most lines of at least so many bytes that a file can have.
inline std::size_t lines(std::span<const std::uint8_t> file, std::size_t least) {
    return std::min<std::size_t>(std::count(file.begin(), file.end(), '\n'), file.size() / least);
}

} // namespace detail

// The faces laid over a cloud, and how they came about.
struct Patch {
    std::size_t points = 0;
    std::vector<Face> faces;
    std::vector<std::array<std::uint32_t, 2>> origins; // of each face its parent, and the place of its radius
    std::vector<float> radii;
    std::uint32_t seeds = 0, looks = 0, pivots = 0;

    // For each point 1 if a face touches it, else 0; and how many do.
    std::pair<std::vector<std::uint32_t>, std::size_t> reached() const {
        std::vector<std::uint32_t> marks(points);
        std::span<const Face> all(faces);
        std::size_t count = yb_mark_reached(detail::numbers(all), 3 * all.size(), marks.data(), marks.size());
        return {std::move(marks), count};
    }
};

struct Cloud {
    float radius = 0;
    std::vector<Point> points, normals;
};

struct Nearest {
    std::uint32_t point;
    float distance;
};

// Room for the calls that need some, allocated once and used again.
class Workspace {
public:
    float estimate_radius(Points points, float percentile) {
        make_room(points.size());
        YbEstimate r = yb_estimate_optimal_radius(detail::numbers(points), 3 * points.size(), percentile, words_.data(),
                                                  words_.size(), floats_.data(), floats_.size());
        detail::accept(r.answer, r.detail);
        return r.radius;
    }

    // Lays a patch over the points; a turned one faces one way.
    Patch reconstruct(Points points, Points normals, const Settings &settings, bool turned = false) {
        make_room(points.size());
        faces_.resize(YB_FACE_NUMBERS / 3);
        origins_.resize(YB_ORIGIN_NUMBERS / 2);
        YbPatch r = yb_reconstruct_with_origins(
            detail::numbers(points), 3 * points.size(), detail::numbers(normals), 3 * normals.size(), settings, turned,
            detail::numbers(faces_), YB_FACE_NUMBERS, detail::numbers(origins_), YB_ORIGIN_NUMBERS, words_.data(),
            words_.size(), floats_.data(), floats_.size());
        detail::accept(r.answer, r.detail);
        return {points.size(),
                {faces_.begin(), faces_.begin() + r.faces},
                {origins_.begin(), origins_.begin() + r.faces},
                {r.radii, r.radii + r.radii_count},
                r.seeds, r.looks, r.pivots};
    }

    std::vector<std::uint32_t> build_index(Points points) {
        make_room(points.size());
        std::vector<std::uint32_t> index(YB_INDEX(std::min<std::size_t>(points.size(), YB_MAX_POINTS)));
        YbIndexed r = yb_build_index(detail::numbers(points), 3 * points.size(), index.data(), index.size(),
                                     words_.data(), words_.size(), floats_.data(), floats_.size());
        detail::accept(r.answer, r.detail);
        return index;
    }

    // The nearest point to each spot, and its distance.
    std::vector<Nearest> nearest(Points points, std::span<const std::uint32_t> index, Points spots) {
        make_room(points.size());
        std::vector<std::uint32_t> found(spots.size());
        std::vector<float> distances(spots.size());
        YbSearched r = yb_nearest_distances(
            detail::numbers(points), 3 * points.size(), detail::numbers(spots), 3 * spots.size(), index.data(),
            index.size(), found.data(), found.size(), distances.data(), distances.size(), words_.data(), words_.size(),
            floats_.data(), floats_.size());
        detail::accept(r.answer, r.detail);
        std::vector<Nearest> nearest;
        for (std::size_t i = 0; i < spots.size(); i++) nearest.push_back({found[i], distances[i]});
        return nearest;
    }

private:
    void make_room(std::size_t points) {
        std::size_t n = std::min<std::size_t>(points, YB_MAX_POINTS);
        words_.resize(std::max<std::size_t>(words_.size(), YB_WORDS(n)));
        floats_.resize(std::max<std::size_t>(floats_.size(), YB_FLOATS(n)));
    }

    std::vector<std::uint32_t> words_;
    std::vector<float> floats_;
    std::vector<Face> faces_;
    std::vector<std::array<std::uint32_t, 2>> origins_;
};

// Why a triangle was turned down, or that it was not.
inline YbVerdict judge(Points points, Points normals, const Settings &settings, std::array<std::size_t, 3> triangle) {
    YbVerdict r = yb_judge_triangle(detail::numbers(points), 3 * points.size(), detail::numbers(normals),
                                    3 * normals.size(), settings, triangle[0], triangle[1], triangle[2]);
    detail::accept(r.answer, r.detail);
    return r;
}

inline Cloud read_cloud(std::span<const std::uint8_t> file) {
    std::size_t most = detail::lines(file, 12);
    Cloud cloud{0, std::vector<Point>(most), std::vector<Point>(most)};
    YbCloudRead r = yb_read_cloud(file.data(), file.size(), detail::numbers(cloud.points), 3 * most,
                                  detail::numbers(cloud.normals), 3 * most);
    detail::accept(r.answer, r.detail);
    cloud.radius = r.radius;
    cloud.points.resize(r.count);
    cloud.normals.resize(r.count);
    return cloud;
}

inline std::vector<std::uint8_t> write_stl(Points points, std::span<const Face> faces) {
    std::vector<std::uint8_t> file(YB_STL_BYTES(std::min<std::size_t>(faces.size(), 1000000)));
    YbStlWritten r = yb_write_stl(detail::numbers(points), 3 * points.size(), detail::numbers(faces), 3 * faces.size(),
                                  file.data(), file.size());
    detail::accept(r.answer, r.detail);
    return file;
}

} // namespace yarrowbleat
