// Every call of the C++ face on a cloud file, against the C calls; and that refusals are exceptions.
#include "yarrowbleat.hpp"

#include <cstdio>
#include <cstdlib>
#include <fstream>
#include <iterator>

using namespace yarrowbleat;

static void hold(bool holds, const char *what) {
    if (holds) return;
    std::fprintf(stderr, "faces: %s\n", what);
    std::exit(1);
}

template <class Call> static void refused(std::uint32_t number, std::size_t detail, Call call) {
    try {
        call();
    } catch (const Refusal &refusal) {
        hold(refusal.number == number && refusal.detail == detail, "another refusal");
        hold(std::string(refusal.what()) == yb_answer_text(number), "other words");
        return;
    }
    hold(false, "no refusal");
}

static void lay(const Cloud &cloud) {
    Workspace room;
    Settings settings = yb_default_config(cloud.radius);
    Patch patch = room.reconstruct(cloud.points, cloud.normals, settings, true);
    hold(patch.faces.size() == patch.origins.size() && !patch.radii.empty(), "a patch's lists");
    hold(patch.reached().second == patch.faces.size() + 2 * patch.seeds, "the points reached");
    hold(room.estimate_radius(cloud.points, 0.5f) > 0, "an estimate");
    auto [a, b, c] = patch.faces[0];
    hold(judge(cloud.points, cloud.normals, settings, {a, b, c}).kind == YB_GOOD, "a face that was laid");
    std::vector<std::uint8_t> file = write_stl(cloud.points, patch.faces);
    hold(file.size() == YB_STL_BYTES(patch.faces.size()), "an STL file");
    Patch again = room.reconstruct(cloud.points, cloud.normals, settings, true);
    hold(again.faces == patch.faces, "the same room again");
    refused(2, 0, [&] { room.reconstruct(cloud.points, {}, settings); });
    refused(14, 0, [&] { judge(cloud.points, cloud.normals, settings, {0, 1, cloud.points.size()}); });
    refused(1, 0, [&] { room.estimate_radius({}, 0.5f); });
}

static void search(const Cloud &cloud) {
    Workspace room;
    std::vector<std::uint32_t> index = room.build_index(cloud.points);
    std::vector<Nearest> found = room.nearest(cloud.points, index, cloud.points);
    for (std::size_t i = 0; i < found.size(); i++) hold(found[i].point <= i && found[i].distance == 0, "itself");
    hold(room.nearest(cloud.points, index, {}).empty(), "no spots");
    index[0] ^= 1;
    refused(22, 0, [&] { room.nearest(cloud.points, index, cloud.points); });
}

int main(int argc, char **argv) {
    check_layout();
    std::ifstream file(argc > 1 ? argv[1] : "", std::ios::binary);
    std::vector<std::uint8_t> bytes{std::istreambuf_iterator<char>(file), std::istreambuf_iterator<char>()};
    Cloud cloud = read_cloud(bytes);
    lay(cloud);
    search(cloud);
    bytes.push_back('x');
    refused(10, cloud.points.size() + 2, [&] { read_cloud(bytes); });
    return 0;
}
