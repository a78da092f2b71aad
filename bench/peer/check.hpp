// The check of one uncompressed vector tile with protozero, as `mvtgate check` does it: its wire grammar, the versions and
// names of its layers, and the tags and the geometry commands of its features. docs/SPECIFICATION.md says what a fault is.
#pragma once

#include "geometry.hpp"
#include "reading.hpp"

#include <algorithm>
#include <cstddef>
#include <cstdint>
#include <string_view>
#include <vector>

namespace peer {

constexpr std::uint64_t only_version = 2;

// The tags of a layer's features, which mostly stand before the keys and values that they index: so the greatest
// indices are kept up to the layer's end. One object serves all layers of a tile.
class Tags {
public:
    void begin_layer(std::size_t bytes) {
        most_keys_ = bytes / fewest_bytes_of_key;
        keys_due_ = 0;
        values_due_ = 0;
    }

    void begin_feature() {
        ++feature_;
        is_key_ = true;
    }

    void take(std::uint32_t index) {
        if (is_key_) {
            mark_key(index);
        } else {
            values_due_ = std::max(values_due_, std::size_t{index} + 1);
        }
        is_key_ = !is_key_;
    }

    void end_feature() const {
        require(is_key_, "the number of tags is odd");
    }

    void end_layer(std::size_t keys, std::size_t values) const {
        require(keys_due_ <= keys, "a tag has a key that the layer hasn't");
        require(values_due_ <= values, "a tag has a value that the layer hasn't");
    }

private:
    // a field's key and a length of 0
    static constexpr std::size_t fewest_bytes_of_key = 2;

    void mark_key(std::size_t key) {
        // (so that the marks take no more memory than a layer of these bytes can ask for)
        require(key < most_keys_, "a tag has a key that the layer hasn't");
        if (key >= last_features_.size()) {
            last_features_.resize(key + 1);
        }
        require(last_features_[key] != feature_, "a feature has two tags of one key");
        last_features_[key] = feature_;
        keys_due_ = std::max(keys_due_, key + 1);
    }

    std::size_t most_keys_ = 0;
    std::size_t keys_due_ = 0;
    std::size_t values_due_ = 0;
    bool is_key_ = true;
    // features are counted from 1 through the whole tile, so that no mark is ever taken back (2^32 of them take 24 GiB)
    std::uint32_t feature_ = 0;
    std::vector<std::uint32_t> last_features_;
};

inline void check_value(pbf_reader value) {
    int fields = 0;
    while (next(value)) {
        fields += value.tag() <= 7 ? 1 : 0;
        switch (value.tag_and_type()) {
            case delimited(1):
                check_text(get_payload(value));
                break;
            case fixed32(2):
            case fixed64(3):
                value.skip();
                break;
            case varint(4):
            case varint(5):
            case varint(6):
            case varint(7):
                get_number(value, any_number);
                break;
            default:
                skip_unknown(value, value.tag() <= 7);
        }
    }
    require(fields == 1, "a value has none or several of its fields");
}

inline void check_feature(pbf_reader feature, Tags& tags, Geometry& geometry) {
    std::uint64_t type = unknown;
    bool has_id = false;
    bool has_type = false;
    tags.begin_feature();
    geometry.begin_feature();
    while (next(feature)) {
        switch (feature.tag_and_type()) {
            case varint(1):
                mark_once(has_id);
                get_number(feature, any_number);
                break;
            case delimited(2):
                for (Numbers indices{get_payload(feature)}; !indices.at_end();) {
                    tags.take(indices.next());
                }
                break;
            case varint(2):
                tags.take(static_cast<std::uint32_t>(get_number(feature, greatest_uint32)));
                break;
            case varint(3):
                mark_once(has_type);
                type = get_number(feature, polygon);
                break;
            case delimited(4):
                geometry.add(get_payload(feature));
                break;
            case varint(4):
                geometry.add(get_varint(feature));
                break;
            default:
                skip_unknown(feature, feature.tag() <= 4);
        }
    }
    require(has_type, "a feature lacks its type");
    tags.end_feature();
    geometry.end_feature(type);
}

// The layer's name.
inline std::string_view check_layer(pbf_reader layer, Tags& tags, Geometry& geometry) {
    data_view name;
    std::size_t keys = 0;
    std::size_t values = 0;
    bool has_name = false;
    bool has_extent = false;
    bool has_version = false;
    tags.begin_layer(layer.length());
    while (next(layer)) {
        switch (layer.tag_and_type()) {
            case delimited(1):
                mark_once(has_name);
                name = get_payload(layer);
                check_text(name);
                break;
            case delimited(2):
                check_feature(pbf_reader{get_payload(layer)}, tags, geometry);
                break;
            case delimited(3):
                ++keys;
                check_text(get_payload(layer));
                break;
            case delimited(4):
                ++values;
                check_value(pbf_reader{get_payload(layer)});
                break;
            case varint(5):
                mark_once(has_extent);
                get_number(layer, greatest_uint32);
                break;
            case varint(15):
                mark_once(has_version);
                require(get_number(layer, greatest_uint32) == only_version, "a layer's version isn't 2");
                break;
            default:
                skip_unknown(layer, layer.tag() <= 5 || layer.tag() == 15);
        }
    }
    require(has_name && has_version, "a layer lacks its name or its version");
    tags.end_layer(keys, values);
    return {name.data(), name.size()};
}

inline void require_different(std::vector<std::string_view>& names) {
    std::sort(names.begin(), names.end());
    const bool is_twice = std::adjacent_find(names.begin(), names.end()) != names.end();
    require(!is_twice, "two layers have one name");
}

inline void check_tile(pbf_reader tile) {
    std::vector<std::string_view> names;
    Tags tags;
    Geometry geometry;
    while (next(tile)) {
        if (tile.tag_and_type() == delimited(3)) {
            names.push_back(check_layer(pbf_reader{get_payload(tile)}, tags, geometry));
        } else {
            skip_unknown(tile, tile.tag() == 3);
        }
    }
    require_different(names);
}

} // namespace peer
