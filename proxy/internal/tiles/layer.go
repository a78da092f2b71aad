package tiles

import (
	"encoding/binary"
	"unicode/utf8"
)

// Field numbers of a tile's messages (MVT 2.1, section 4.1), and the wire type of a message or a text.
const (
	layersField, nameField = 3, 1
	lengthDelimited        = 2
)

// mostName is the bytes of the longest name of a layer that is told: a tile may have one that is as long as itself.
const mostName = 1000

// LayerName is the name of a layer by its ordinal, or "" where the tile's bytes have none that can be read, or a very long one.
func LayerName(tile []byte, ordinal uint64) string {
	for len(tile) > 0 {
		number, payload, rest, isWhole := field(tile)
		if !isWhole {
			return ""
		}
		if number == layersField && payload != nil {
			if ordinal == 0 {
				return nameOf(payload)
			}
			ordinal--
		}
		tile = rest
	}
	return ""
}

func nameOf(layer []byte) string {
	for len(layer) > 0 {
		number, payload, rest, isWhole := field(layer)
		if !isWhole {
			return ""
		}
		if number == nameField && payload != nil && len(payload) <= mostName && utf8.Valid(payload) {
			return string(payload)
		}
		layer = rest
	}
	return ""
}

// field is a field at the front of a message: its number, its payload where it has a length, and what comes after it.
func field(message []byte) (number uint64, payload, rest []byte, isWhole bool) {
	key, size := binary.Uvarint(message)
	if size <= 0 {
		return 0, nil, nil, false
	}
	rest = message[size:]
	var length uint64
	switch key & 7 {
	case 0:
		_, size = binary.Uvarint(rest)
		if size <= 0 {
			return 0, nil, nil, false
		}
		length = uint64(size)
	case 1:
		length = 8
	case 5:
		length = 4
	case lengthDelimited:
		length, size = binary.Uvarint(rest)
		if size <= 0 || length > uint64(len(rest)-size) {
			return 0, nil, nil, false
		}
		rest = rest[size:]
		return key >> 3, rest[:length:length], rest[length:], true
	default:
		return 0, nil, nil, false
	}
	if length > uint64(len(rest)) {
		return 0, nil, nil, false
	}
	return key >> 3, nil, rest[length:], true
}
