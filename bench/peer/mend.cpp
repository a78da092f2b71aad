// Mends features by a library, for bench/mend: mend METHOD < FEATURES > MENDED
//
// A feature is a line: how many rings, and of each how many positions, and their coordinates. So are mended ones, with the exterior of
// each polygon, of positive doubled area, before its holes, rounded to the grid. METHOD is linework or structure (GEOS's two ways of
// MakeValid), each with `+precision` for its precision reducer to the grid afterwards, or clipper (Clipper 6, non-zero, strictly simple).
// The last line is the time of all features in microseconds, without reading and writing.
#define USE_UNSTABLE_GEOS_CPP_API 1
#include <geos_c.h>

#include <chrono>
#include <cmath>
#include <cstdint>
#include <cstdio>
#include <iostream>
#include <polyclipping/clipper.hpp>
#include <string>
#include <vector>

struct Position {
    int64_t x, y;
};
using Ring = std::vector<Position>;
using Rings = std::vector<Ring>;

static double doubled_area(const Ring& ring) {
    double sum = 0;
    for (size_t i = 0; i < ring.size(); ++i) {
        const Position &a = ring[i], &b = ring[i + 1 == ring.size() ? 0 : i + 1];
        sum += double(a.x) * double(b.y) - double(b.x) * double(a.y);
    }
    return sum;
}

static bool read(Rings& rings) {
    size_t count, positions;
    if (!(std::cin >> count)) return false;
    rings.assign(count, {});
    for (auto& ring : rings) {
        std::cin >> positions;
        ring.resize(positions);
        for (auto& it : ring) std::cin >> it.x >> it.y;
    }
    return true;
}

static void write(const Rings& rings) {
    std::cout << rings.size();
    for (auto& ring : rings) {
        std::cout << ' ' << ring.size();
        for (auto& it : ring) std::cout << ' ' << it.x << ' ' << it.y;
    }
    std::cout << '\n';
}

// Adds a ring that a library gave, rounded, without positions that repeat the one before.
static void add(Rings& rings, Ring ring, bool is_exterior) {
    Ring kept;
    for (auto& it : ring)
        if (kept.empty() || kept.back().x != it.x || kept.back().y != it.y) kept.push_back(it);
    while (kept.size() > 1 && kept.back().x == kept.front().x && kept.back().y == kept.front().y) kept.pop_back();
    double area = doubled_area(kept);
    if (kept.size() < 3 || area == 0) return;
    if ((area > 0) != is_exterior) kept = Ring(kept.rbegin(), kept.rend());
    rings.push_back(kept);
}

// The polygons of a feature as readers of tiles take them: a ring that goes round as the first one begins a polygon.
static std::vector<Rings> polygons(const Rings& rings) {
    std::vector<Rings> found;
    double first = 0;
    for (auto& ring : rings) {
        double area = doubled_area(ring);
        if (ring.size() < 3 || area == 0) continue;
        if (first == 0) first = area;
        if ((area > 0) == (first > 0)) found.emplace_back();
        found.back().push_back(ring);
    }
    return found;
}

static GEOSContextHandle_t geos;

static GEOSGeometry* geos_ring(const Ring& ring) {
    GEOSCoordSequence* list = GEOSCoordSeq_create_r(geos, unsigned(ring.size() + 1), 2);
    for (size_t i = 0; i <= ring.size(); ++i) {
        const Position& it = ring[i == ring.size() ? 0 : i];
        GEOSCoordSeq_setXY_r(geos, list, unsigned(i), double(it.x), double(it.y));
    }
    return GEOSGeom_createLinearRing_r(geos, list);
}

static GEOSGeometry* geos_feature(const Rings& rings) {
    std::vector<GEOSGeometry*> parts;
    for (auto& polygon : polygons(rings)) {
        std::vector<GEOSGeometry*> holes;
        for (size_t i = 1; i < polygon.size(); ++i) holes.push_back(geos_ring(polygon[i]));
        parts.push_back(GEOSGeom_createPolygon_r(geos, geos_ring(polygon[0]), holes.data(), unsigned(holes.size())));
    }
    return GEOSGeom_createCollection_r(geos, GEOS_MULTIPOLYGON, parts.data(), unsigned(parts.size()));
}

static Ring ring_of(const GEOSGeometry* line) {
    const GEOSCoordSequence* list = GEOSGeom_getCoordSeq_r(geos, line);
    unsigned count = 0;
    GEOSCoordSeq_getSize_r(geos, list, &count);
    Ring ring;
    for (unsigned i = 0; i + 1 < count; ++i) {
        double x, y;
        GEOSCoordSeq_getXY_r(geos, list, i, &x, &y);
        ring.push_back({int64_t(std::llround(x)), int64_t(std::llround(y))});
    }
    return ring;
}

static void take(const GEOSGeometry* it, Rings& out) {
    if (GEOSGeomTypeId_r(geos, it) == GEOS_POLYGON) {
        if (GEOSisEmpty_r(geos, it)) return;
        size_t before = out.size();
        add(out, ring_of(GEOSGetExteriorRing_r(geos, it)), true);
        if (out.size() == before) return;
        for (int i = 0; i < GEOSGetNumInteriorRings_r(geos, it); ++i) add(out, ring_of(GEOSGetInteriorRingN_r(geos, it, i)), false);
        return;
    }
    if (GEOSGeomTypeId_r(geos, it) < GEOS_MULTIPOINT) return;
    for (int i = 0; i < GEOSGetNumGeometries_r(geos, it); ++i) take(GEOSGetGeometryN_r(geos, it, i), out);
}

static Rings by_geos(const Rings& rings, bool is_structure, bool is_precise) {
    Rings out;
    GEOSGeometry* feature = geos_feature(rings);
    GEOSMakeValidParams* how = GEOSMakeValidParams_create_r(geos);
    GEOSMakeValidParams_setMethod_r(geos, how, is_structure ? GEOS_MAKE_VALID_STRUCTURE : GEOS_MAKE_VALID_LINEWORK);
    GEOSGeometry* valid = GEOSMakeValidWithParams_r(geos, feature, how);
    if (valid && is_precise) {
        GEOSGeometry* rounded = GEOSGeom_setPrecision_r(geos, valid, 1.0, 0);
        GEOSGeom_destroy_r(geos, valid);
        valid = rounded;
    }
    if (valid) {
        take(valid, out);
        GEOSGeom_destroy_r(geos, valid);
    }
    GEOSMakeValidParams_destroy_r(geos, how);
    GEOSGeom_destroy_r(geos, feature);
    return out;
}

static void take(const ClipperLib::PolyNode& node, Rings& out) {
    auto ring_of = [](const ClipperLib::PolyNode& it) {
        Ring ring;
        for (auto& p : it.Contour) ring.push_back({int64_t(p.X), int64_t(p.Y)});
        return ring;
    };
    for (auto exterior : node.Childs) {
        size_t before = out.size();
        add(out, ring_of(*exterior), true);
        for (auto hole : exterior->Childs) {
            if (out.size() != before) add(out, ring_of(*hole), false);
        }
        for (auto hole : exterior->Childs) take(*hole, out);
    }
}

static Rings by_clipper(const Rings& rings) {
    Rings out;
    ClipperLib::Clipper clipper;
    clipper.StrictlySimple(true);
    for (auto& ring : rings) {
        ClipperLib::Path path;
        for (auto& it : ring) path.push_back({ClipperLib::cInt(it.x), ClipperLib::cInt(it.y)});
        clipper.AddPath(path, ClipperLib::ptSubject, true);
    }
    ClipperLib::PolyTree tree;
    clipper.Execute(ClipperLib::ctUnion, tree, ClipperLib::pftNonZero, ClipperLib::pftNonZero);
    take(tree, out);
    return out;
}

int main(int count, char** words) {
    std::string method = count == 2 ? words[1] : "";
    size_t plus = method.find('+');
    std::string base = method.substr(0, plus);
    if (base != "linework" && base != "structure" && base != "clipper") return 2;
    std::ios::sync_with_stdio(false);
    geos = GEOS_init_r();
    std::vector<Rings> features;
    for (Rings rings; read(rings);) features.push_back(rings);
    std::vector<Rings> mended;
    auto begin = std::chrono::steady_clock::now();
    for (auto& it : features) {
        mended.push_back(base == "clipper" ? by_clipper(it) : by_geos(it, base == "structure", plus != std::string::npos));
    }
    auto time = std::chrono::steady_clock::now() - begin;
    for (auto& it : mended) write(it);
    std::cout << std::chrono::duration_cast<std::chrono::microseconds>(time).count() << '\n';
    GEOS_finish_r(geos);
}
