// The polygons of features, as GEOS sees them. Rings become polygons as `mvtgate check` groups them. What is valid is up to
// GEOS, by the rules of OGC Simple Features, which let rings, and polygons, touch in a point.
#pragma once

#include "rings.hpp"

#include <geos_c.h>

#include <cstddef>
#include <cstdint>
#include <memory>
#include <utility>
#include <vector>

namespace peer {

class Geos {
public:
    Geos() : handle_{GEOS_init_r()} {}
    ~Geos() {
        GEOS_finish_r(handle_);
    }
    Geos(const Geos&) = delete;
    Geos& operator=(const Geos&) = delete;

    operator GEOSContextHandle_t() const {
        return handle_;
    }

private:
    GEOSContextHandle_t handle_;
};

struct Destroy {
    GEOSContextHandle_t geos;

    void operator()(GEOSGeometry* shape) const {
        GEOSGeom_destroy_r(geos, shape);
    }
};

using Shape = std::unique_ptr<GEOSGeometry, Destroy>;

// Twice the area, in whole numbers: a product has up to 61 bits, more than a double holds.
inline __int128 doubled_area(const Ring& ring) {
    __int128 area = 0;
    for (std::size_t i = 0; i + 3 < ring.size(); i += 2) {
        const auto at = [&](std::size_t j) { return static_cast<std::int64_t>(ring[i + j]); };
        area += at(0) * at(3) - at(2) * at(1);
    }
    return area;
}

// The polygons of a feature, one at a time or together.
class Polygons {
public:
    Polygons(const Geos& geos, bool together) : geos_{geos}, together_{together} {}

    void check(Numbers numbers) {
        Cursor cursor;
        do {
            const Ring ring = draw_ring(numbers, cursor);
            const __int128 area = doubled_area(ring);
            require(area != 0, "a ring has no area");
            if (area > 0) {
                end_polygon();
                exterior_ = shape(ring);
            } else {
                require(exterior_ != nullptr, "a feature begins with a hole");
                holes_.push_back(shape(ring));
            }
        } while (!numbers.at_end());
        end_polygon();
        if (together_) {
            end_feature();
        }
    }

private:
    Shape own(GEOSGeometry* made) const {
        require(made != nullptr, "GEOS makes no shape of a ring or a polygon");
        return {made, Destroy{geos_}};
    }

    Shape shape(const Ring& ring) const {
        const auto count = static_cast<unsigned>(ring.size() / 2);
        return own(GEOSGeom_createLinearRing_r(geos_, GEOSCoordSeq_copyFromBuffer_r(geos_, ring.data(), count, 0, 0)));
    }

    void end_polygon() {
        if (exterior_ == nullptr) {
            return;
        }
        // (the polygon takes them over)
        std::vector<GEOSGeometry*> holes;
        for (Shape& hole : holes_) {
            holes.push_back(hole.release());
        }
        holes_.clear();
        const auto count = static_cast<unsigned>(holes.size());
        Shape polygon = own(GEOSGeom_createPolygon_r(geos_, exterior_.release(), holes.data(), count));
        if (together_) {
            polygons_.push_back(std::move(polygon));
        } else {
            require(GEOSisValid_r(geos_, polygon.get()) == 1, "a polygon isn't valid");
        }
    }

    void end_feature() {
        std::vector<GEOSGeometry*> parts;
        for (Shape& polygon : polygons_) {
            parts.push_back(polygon.release());
        }
        polygons_.clear();
        const auto count = static_cast<unsigned>(parts.size());
        const Shape feature = own(GEOSGeom_createCollection_r(geos_, GEOS_MULTIPOLYGON, parts.data(), count));
        require(GEOSisValid_r(geos_, feature.get()) == 1, "a feature isn't valid");
    }

    const Geos& geos_;
    bool together_;
    Shape exterior_{nullptr, Destroy{geos_}};
    std::vector<Shape> holes_;
    std::vector<Shape> polygons_;
};

} // namespace peer
