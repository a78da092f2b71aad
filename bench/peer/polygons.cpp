// Says whether the polygons of one uncompressed vector tile are valid, by GEOS: polygons [--features] [FILE]. With
// --features those of a feature are checked together, as a MultiPolygon.
//
// Without FILE the tile comes from standard input. It writes {"ok":true} with status 0, or what is wrong with status 1;
// status 2 says that it could not run. Nothing else of the tile is checked.
#include "polygons.hpp"

#include <string_view>

int main(int count, char** words) {
    const peer::Geos geos;
    const bool together = count > 1 && std::string_view{words[1]} == "--features";
    const int skipped = together ? 1 : 0;
    return peer::run(count - skipped, words + skipped, [&](peer::Numbers numbers) { peer::Polygons{geos, together}.check(numbers); });
}
