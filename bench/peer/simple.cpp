// Says whether each ring of the polygons of one uncompressed vector tile is simple, by CGAL: simple [FILE].
//
// Without FILE the tile comes from standard input. It writes {"ok":true} with status 0, or what is wrong with status 1;
// status 2 says that it could not run. CGAL checks each ring by itself, by a sweep over exact predicates; nothing is
// said of two rings of one polygon, and nothing else of the tile is checked.
#include "rings.hpp"

#include <CGAL/Exact_predicates_inexact_constructions_kernel.h>
#include <CGAL/Polygon_2_algorithms.h>

#include <cstddef>
#include <vector>

namespace {

using namespace peer;

using Kernel = CGAL::Exact_predicates_inexact_constructions_kernel;

void check(Numbers numbers) {
    Cursor cursor;
    std::vector<Kernel::Point_2> vertices;
    do {
        const Ring ring = draw_ring(numbers, cursor);
        vertices.clear();
        for (std::size_t i = 0; i + 2 < ring.size(); i += 2) {
            vertices.emplace_back(ring[i], ring[i + 1]);
        }
        require(CGAL::is_simple_2(vertices.begin(), vertices.end(), Kernel{}), "a ring isn't simple");
    } while (!numbers.at_end());
}

} // namespace

int main(int count, char** words) {
    return run(count, words, check);
}
