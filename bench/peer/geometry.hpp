// Checks that geometries draw figures (Mapbox Vector Tile Specification 2.1, section 4.3).
#pragma once

#include "reading.hpp"

#include <cstddef>
#include <cstdint>
#include <cstdlib>
#include <string>

namespace peer {

// geometry types (section 4.3.4), as their field spells them
enum Type : std::uint64_t { unknown, point, line_string, polygon };

// commands (section 4.3.1)
enum Command : std::uint32_t { move_to = 1, line_to = 2, close_path = 7 };

// of a command, by the bits of its number
constexpr std::uint32_t greatest_count = greatest_uint32 >> 3;
// coordinates lie from -2^30 to 2^30
constexpr std::int64_t greatest_coordinate = std::int64_t{1} << 30;

// The cursor of a geometry: the position that was drawn last.
class Cursor {
public:
    // Answers whether it moved.
    bool take(Numbers& parameters) {
        const std::uint32_t across = step(x_, parameters.next());
        const std::uint32_t down = step(y_, parameters.next());
        return (across | down) != 0;
    }

    std::int64_t x() const {
        return x_;
    }

    std::int64_t y() const {
        return y_;
    }

private:
    // The parameter again.
    static std::uint32_t step(std::int64_t& coordinate, std::uint32_t parameter) {
        require(parameter != greatest_uint32, "a parameter is -2^31");
        coordinate += protozero::decode_zigzag32(parameter);
        require(std::abs(coordinate) <= greatest_coordinate, "a coordinate is out of range");
        return parameter;
    }

    std::int64_t x_ = 0;
    std::int64_t y_ = 0;
};

inline std::uint32_t get_count(Numbers& commands, Command due, std::uint32_t fewest, std::uint32_t most) {
    const std::uint32_t command = commands.next();
    const std::uint32_t count = command >> 3;
    require((command & 7) == due, "another command is due, or none");
    require(count >= fewest && count <= most, "a command has a count that it can't have");
    return count;
}

// A line, or a ring up to the command that closes it.
inline void check_path(Numbers& numbers, Cursor& cursor, std::uint32_t fewest_lines) {
    get_count(numbers, move_to, 1, 1);
    cursor.take(numbers);
    for (std::uint32_t left = get_count(numbers, line_to, fewest_lines, greatest_count); left > 0; --left) {
        require(cursor.take(numbers), "a line goes nowhere");
    }
}

// Checks that the numbers draw a figure of the type; those of an unknown one draw nothing.
inline void check_commands(Numbers numbers, std::uint64_t type) {
    Cursor cursor;
    switch (type) {
        case point:
            for (std::uint32_t left = get_count(numbers, move_to, 1, greatest_count); left > 0; --left) {
                cursor.take(numbers);
            }
            require(numbers.at_end(), "a command stands behind the points");
            break;
        case line_string:
            do {
                check_path(numbers, cursor, 1);
            } while (!numbers.at_end());
            break;
        case polygon:
            do {
                check_path(numbers, cursor, 2);
                get_count(numbers, close_path, 1, 1);
            } while (!numbers.at_end());
            break;
        default:
            while (!numbers.at_end()) {
                numbers.next();
            }
    }
}

// The geometry of a feature, whose type may come after it. It mostly is one packed field, which is then decoded where
// it stands; what stands in several fields is joined first. One object serves all features of a tile.
class Geometry {
public:
    void begin_feature() {
        fields_ = 0;
    }

    // Takes the varints of one field.
    void add(data_view varints) {
        // (else one could end in the next field)
        require(varints.empty() || (varints.data()[varints.size() - 1] & 0x80) == 0, "a number ends too early");
        if (fields_ == 0) {
            first_ = varints;
        } else {
            if (fields_ == 1) {
                joined_.assign(first_.data(), first_.size());
            }
            joined_.append(varints.data(), varints.size());
        }
        ++fields_;
    }

    // What was taken, joined.
    Numbers numbers() const {
        require(fields_ > 0, "a feature lacks its geometry");
        return Numbers{fields_ == 1 ? first_ : data_view{joined_}};
    }

    void end_feature(std::uint64_t type) const {
        check_commands(numbers(), type);
    }

private:
    std::size_t fields_ = 0;
    data_view first_;
    std::string joined_;
};

} // namespace peer
