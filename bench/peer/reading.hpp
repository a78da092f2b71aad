// Reads protobuf messages with protozero, and refuses what protozero alone would let through.
#pragma once

#include <protozero/pbf_reader.hpp>

#include <cstddef>
#include <cstdint>
#include <cstdio>
#include <cstring>
#include <limits>
#include <stdexcept>
#include <string>

namespace peer {

using protozero::data_view;
using protozero::pbf_reader;
using protozero::pbf_wire_type;

constexpr std::uint64_t any_number = std::numeric_limits<std::uint64_t>::max();
constexpr std::uint32_t greatest_uint32 = std::numeric_limits<std::uint32_t>::max();

struct Fault : std::runtime_error {
    using std::runtime_error::runtime_error;
};

// The key of a field, as the cases of a switch have it.
constexpr std::uint32_t varint(std::uint32_t number) {
    return protozero::tag_and_type(number, pbf_wire_type::varint);
}

constexpr std::uint32_t delimited(std::uint32_t number) {
    return protozero::tag_and_type(number, pbf_wire_type::length_delimited);
}

constexpr std::uint32_t fixed32(std::uint32_t number) {
    return protozero::tag_and_type(number, pbf_wire_type::fixed32);
}

constexpr std::uint32_t fixed64(std::uint32_t number) {
    return protozero::tag_and_type(number, pbf_wire_type::fixed64);
}

inline void require(bool holds, const char* fault) {
    if (!holds) {
        throw Fault{fault};
    }
}

inline std::string read_whole(std::FILE* input) {
    std::string bytes;
    char buffer[1 << 16];
    while (const std::size_t length = std::fread(buffer, 1, sizeof buffer, input)) {
        bytes.append(buffer, length);
    }
    return bytes;
}

// Of a varint's tenth byte protozero takes the lowest bit and drops the others, which are a fault here.
inline void require_short(const char* begin, const char* end) {
    require(end - begin < protozero::max_varint_length || end[-1] <= 1, "a varint is too long");
}

// protozero cuts keys and lengths to 32 bits, where a greater number is a fault. Less than five bytes hold none.
inline void require_uint32(const char* begin, const char* end) {
    if (end - begin >= 5) {
        require_short(begin, end);
        require(protozero::decode_varint(&begin, end) <= greatest_uint32, "a key or a length passes 32 bits");
    }
}

inline bool next(pbf_reader& message) {
    const char* const key = message.data().data();
    if (!message.next()) {
        return false;
    }
    require_uint32(key, message.data().data());
    return true;
}

inline data_view get_payload(pbf_reader& message) {
    const char* const length = message.data().data();
    const data_view payload = message.get_view();
    require_uint32(length, payload.data());
    return payload;
}

inline std::uint64_t get_number(pbf_reader& message, std::uint64_t greatest) {
    const char* const begin = message.data().data();
    const std::uint64_t number = message.get_uint64();
    require_short(begin, message.data().data());
    require(number <= greatest, "a number is out of range");
    return number;
}

// The varint of a number of 32 bits, checked already.
inline data_view get_varint(pbf_reader& message) {
    const char* const begin = message.data().data();
    get_number(message, greatest_uint32);
    return {begin, static_cast<std::size_t>(message.data().data() - begin)};
}

// The numbers of tags or of a geometry, varints one after another. protozero's iterator would decode each varint twice
// and hide its length.
class Numbers {
public:
    explicit Numbers(data_view varints) : at_{varints.data()}, end_{at_ + varints.size()} {}

    bool at_end() const {
        return at_ == end_;
    }

    std::uint32_t next() {
        // (one byte needs none of the checks below)
        if (at_ != end_ && (*at_ & 0x80) == 0) {
            return static_cast<std::uint32_t>(*at_++);
        }
        const char* const begin = at_;
        const std::uint64_t number = protozero::decode_varint(&at_, end_);
        require_short(begin, at_);
        require(number <= greatest_uint32, "a number is out of range");
        return static_cast<std::uint32_t>(number);
    }

private:
    const char* at_;
    const char* end_;
};

// The length of the UTF-8 character at this place (RFC 3629, section 4), or 0 where none stands there.
inline std::size_t character(const unsigned char* at, std::size_t left) {
    const unsigned first = at[0];
    if (first < 0x80) {
        return 1;
    }
    if (first < 0xC2 || first > 0xF4) {
        return 0;
    }
    const std::size_t length = first < 0xE0 ? 2 : first < 0xF0 ? 3 : 4;
    if (left < length) {
        return 0;
    }
    // (these keep out longer spellings than needed, surrogates, and what is above U+10FFFF)
    const unsigned least = first == 0xE0 ? 0xA0 : first == 0xF0 ? 0x90 : 0x80;
    const unsigned greatest = first == 0xED ? 0x9F : first == 0xF4 ? 0x8F : 0xBF;
    bool is_whole = at[1] >= least && at[1] <= greatest;
    for (std::size_t i = 2; i < length; ++i) {
        is_whole = is_whole && at[i] >= 0x80 && at[i] <= 0xBF;
    }
    return is_whole ? length : 0;
}

inline void check_text(data_view text) {
    constexpr std::uint64_t upper_bits = 0x8080808080808080;
    const auto* at = reinterpret_cast<const unsigned char*>(text.data());
    for (std::size_t left = text.size(); left > 0;) {
        std::uint64_t eight = upper_bits;
        if (left >= sizeof eight) {
            std::memcpy(&eight, at, sizeof eight);
        }
        const std::size_t length = (eight & upper_bits) == 0 ? sizeof eight : character(at, left);
        require(length != 0, "a text isn't UTF-8");
        at += length;
        left -= length;
    }
}

// Skips a field whose number is unknown; one of a known number is here for its wire type, which isn't its own.
inline void skip_unknown(pbf_reader& message, bool is_known) {
    require(!is_known, "a known field has another wire type");
    if (message.has_wire_type(pbf_wire_type::varint)) {
        get_number(message, any_number);
    } else if (message.has_wire_type(pbf_wire_type::length_delimited)) {
        get_payload(message);
    } else {
        message.skip();
    }
}

inline void mark_once(bool& occurs) {
    require(!occurs, "a singular field occurs twice");
    occurs = true;
}

} // namespace peer
