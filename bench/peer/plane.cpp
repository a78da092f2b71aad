// The calls of the plane as an engineer would write them in C++, in the same loops over the same points as the program
// plane_timing: plane CALL ROUNDS. It prints the same sum over the answers. Positions are bounded by 2^30, so that products
// of differences fit 64 bits, and only their differences are taken in 128.
#include <cstdint>
#include <cstdio>
#include <cstdlib>
#include <optional>
#include <string_view>
#include <vector>

namespace {

using wide = __int128;

struct Point {
    std::int32_t x, y;
    bool operator==(Point other) const { return x == other.x && y == other.y; }
};

struct Edge {
    Point a, b;
};

struct RationalPoint {
    wide x, y, w;
};

wide orient(Point a, Point b, Point c) {
    const std::int64_t right = (std::int64_t{b.x} - a.x) * (std::int64_t{c.y} - a.y);
    const std::int64_t left = (std::int64_t{b.y} - a.y) * (std::int64_t{c.x} - a.x);
    return wide{right} - left;
}

bool on_one_side(wide first, wide second) {
    return (first > 0 && second > 0) || (first < 0 && second < 0);
}

bool between(std::int32_t from, std::int32_t to, std::int32_t value) {
    return from <= to ? from <= value && value <= to : to <= value && value <= from;
}

// whether a position on the line through a and b is on the edge between them
bool in_box(Point a, Point b, Point p) {
    return between(a.x, b.x, p.x) && between(a.y, b.y, p.y);
}

wide size(wide value) {
    return value < 0 ? -value : value;
}

std::optional<RationalPoint> common(Edge e, Edge f, std::optional<Point> shared, std::uint64_t& tests) {
    ++tests;
    const wide a_side = orient(f.a, f.b, e.a);
    const wide b_side = orient(f.a, f.b, e.b);
    if (on_one_side(a_side, b_side)) {
        return std::nullopt;
    }
    const wide c_side = orient(e.a, e.b, f.a);
    const wide d_side = orient(e.a, e.b, f.b);
    if (on_one_side(c_side, d_side)) {
        return std::nullopt;
    }
    if (a_side == 0 || b_side == 0 || c_side == 0 || d_side == 0) {
        const auto is_common = [&](wide side, Edge other, Point end) {
            return side == 0 && in_box(other.a, other.b, end) && !(shared && *shared == end);
        };
        if (is_common(a_side, f, e.a)) {
            return RationalPoint{e.a.x, e.a.y, 1};
        }
        if (is_common(b_side, f, e.b)) {
            return RationalPoint{e.b.x, e.b.y, 1};
        }
        if (is_common(c_side, e, f.a)) {
            return RationalPoint{f.a.x, f.a.y, 1};
        }
        if (is_common(d_side, e, f.b)) {
            return RationalPoint{f.b.x, f.b.y, 1};
        }
        return std::nullopt;
    }
    const wide from_a = size(a_side);
    const wide from_b = size(b_side);
    const RationalPoint crossing{from_b * e.a.x + from_a * e.b.x, from_b * e.a.y + from_a * e.b.y, from_a + from_b};
    if (shared && crossing.x == crossing.w * shared->x && crossing.y == crossing.w * shared->y) {
        return std::nullopt;
    }
    return crossing;
}

bool inside(Point p, const Point* ring, std::size_t count) {
    bool is_odd = false;
    for (std::size_t i = 0, last = count - 1; i < count; last = i++) {
        const Point a = ring[last];
        const Point b = ring[i];
        if ((a.x <= p.x) != (b.x <= p.x)) {
            is_odd ^= a.x <= p.x ? orient(a, b, p) < 0 : orient(b, a, p) < 0;
        }
    }
    return is_odd;
}

// The points of plane_timing: the numbers are those of Knuth's linear congruence of 64 bits.
std::vector<Point> points(bool is_walk) {
    std::vector<Point> all;
    std::uint64_t state = 1;
    const auto next = [&] { return state = state * 6364136223846793005u + 1442695040888963407u; };
    Point at{0, 0};
    for (int i = 0; i < 1000000; ++i) {
        const std::uint64_t across = next();
        const std::uint64_t down = next();
        if (is_walk) {
            at.x += static_cast<std::int32_t>(across >> 58) - 32;
            at.y += static_cast<std::int32_t>(down >> 58) - 32;
        } else {
            at.x = static_cast<std::int32_t>(across >> 33) - (1 << 30);
            at.y = static_cast<std::int32_t>(down >> 33) - (1 << 30);
        }
        all.push_back(at);
    }
    return all;
}

std::uint64_t w_of(const std::optional<RationalPoint>& point) {
    return point ? static_cast<std::uint64_t>(point->w) : 0;
}

std::uint64_t round(std::string_view call, const Point* p, std::size_t count) {
    std::uint64_t sum = 0;
    std::uint64_t tests = 0;
    if (call == "orient") {
        wide all = 0;
        for (std::size_t i = 0; i + 2 < count; ++i) {
            all += orient(p[i], p[i + 1], p[i + 2]);
        }
        sum = static_cast<std::uint64_t>(all);
    } else if (call == "neighbours") {
        for (std::size_t i = 0; i + 2 < count; ++i) {
            sum += w_of(common({p[i], p[i + 1]}, {p[i + 1], p[i + 2]}, p[i + 1], tests));
        }
    } else if (call == "apart") {
        for (std::size_t i = 0; i + 3 < count; ++i) {
            sum += w_of(common({p[i], p[i + 1]}, {p[i + 2], p[i + 3]}, std::nullopt, tests));
        }
    } else if (call == "crossing") {
        for (std::size_t i = 0; i + 1 < count; ++i) {
            sum += w_of(common({p[i], p[i + 1]}, {{p[i].x, p[i + 1].y}, {p[i + 1].x, p[i].y}}, std::nullopt, tests));
        }
    } else {
        sum += inside(p[0], p, count);
    }
    return sum + tests;
}

}  // namespace

int main(int count, char** words) {
    if (count != 3) {
        return 1;
    }
    const std::string_view call = words[1];
    const auto all = points(call == "neighbours" || call == "apart" || call == "inside");
    const std::uint32_t rounds = static_cast<std::uint32_t>(std::atoi(words[2]));
    std::uint64_t sum = 0;
    for (std::uint32_t turn = 0; turn < rounds; ++turn) {
        sum += round(call, &all[turn % 16], all.size() - turn % 16);
    }
    std::printf("%llu\n", static_cast<unsigned long long>(sum));
}
