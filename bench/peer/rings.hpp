// The rings of the polygons of a tile, one feature at a time.
#pragma once

#include "geometry.hpp"
#include "reading.hpp"

#include <cstddef>
#include <cstdint>
#include <cstdio>
#include <exception>
#include <string>
#include <vector>

namespace peer {

// x and y in turn, from the first vertex round to the first again
using Ring = std::vector<double>;

inline void push(Ring& ring, const Cursor& cursor) {
    ring.push_back(static_cast<double>(cursor.x()));
    ring.push_back(static_cast<double>(cursor.y()));
}

inline Ring draw_ring(Numbers& numbers, Cursor& cursor) {
    Ring ring;
    get_count(numbers, move_to, 1, 1);
    cursor.take(numbers);
    push(ring, cursor);
    for (std::uint32_t left = get_count(numbers, line_to, 2, greatest_count); left > 0; --left) {
        require(cursor.take(numbers), "a line goes nowhere");
        push(ring, cursor);
    }
    get_count(numbers, close_path, 1, 1);
    const double x = ring[0];
    const double y = ring[1];
    ring.push_back(x);
    ring.push_back(y);
    return ring;
}

// Calls `check` with the numbers of each feature of polygons.
template <typename Check>
void check_feature(pbf_reader feature, Geometry& geometry, Check& check) {
    std::uint64_t type = unknown;
    geometry.begin_feature();
    while (next(feature)) {
        switch (feature.tag_and_type()) {
            case varint(3):
                type = get_number(feature, polygon);
                break;
            case delimited(4):
                geometry.add(get_payload(feature));
                break;
            case varint(4):
                geometry.add(get_varint(feature));
                break;
            default:
                feature.skip();
        }
    }
    if (type == polygon) {
        check(geometry.numbers());
    }
}

template <typename Check>
void check_tile(pbf_reader tile, Check& check) {
    Geometry geometry;
    while (next(tile)) {
        if (tile.tag_and_type() != delimited(3)) {
            tile.skip();
            continue;
        }
        for (pbf_reader layer{get_payload(tile)}; next(layer);) {
            if (layer.tag_and_type() == delimited(2)) {
                check_feature(pbf_reader{get_payload(layer)}, geometry, check);
            } else {
                layer.skip();
            }
        }
    }
}

// Reads a tile from the file that the words name, or from standard input, and has its polygons checked.
template <typename Check>
int run(int count, char** words, Check&& check) {
    std::FILE* const input = count > 1 ? std::fopen(words[1], "rb") : stdin;
    if (input == nullptr) {
        std::perror(words[1]);
        return 2;
    }
    const std::string bytes = read_whole(input);
    if (std::ferror(input) != 0) {
        std::perror("cannot read the input");
        return 2;
    }
    try {
        check_tile(pbf_reader{bytes}, check);
    } catch (const std::exception& fault) {
        std::printf("{\"fault\":\"%s\"}\n", fault.what());
        return 1;
    }
    std::puts("{\"ok\":true}");
    return 0;
}

} // namespace peer
