// Reads a cloud file, lays a patch over it, and says how much of the wall was reached, and which points were not.
#include "yarrowbleat.hpp"

#include <fstream>
#include <iostream>
#include <iterator>

static std::vector<std::uint8_t> read(std::istream &in) {
    return {std::istreambuf_iterator<char>(in), std::istreambuf_iterator<char>()};
}

static void coverage(int argc, char **argv) {
    yarrowbleat::check_layout();
    std::ifstream file;
    if (argc > 1) file.open(argv[1], std::ios::binary);
    if (argc > 1 && !file) throw std::runtime_error("the file can't be read");

    yarrowbleat::Cloud cloud = yarrowbleat::read_cloud(read(argc > 1 ? file : std::cin));
    yarrowbleat::Workspace room;
    yarrowbleat::Patch patch = room.reconstruct(cloud.points, cloud.normals, yb_default_config(cloud.radius));
    auto [reached, count] = patch.reached();
    std::cout << "faces: " << patch.faces.size() << "\nreached: " << count << " of " << reached.size() << " points\n";
    std::cout << "not reached:";
    for (std::size_t point = 0; point < reached.size(); point++)
        if (!reached[point]) std::cout << ' ' << point;
    std::cout << '\n';
}

int main(int argc, char **argv) {
    try {
        coverage(argc, argv);
    } catch (const yarrowbleat::Refusal &refusal) {
        std::cerr << "refused: " << refusal.what() << " (" << refusal.number << ", " << refusal.detail << ")\n";
        return 1;
    } catch (const std::exception &error) {
        std::cerr << error.what() << '\n';
        return 1;
    }
}
