package mvtgate

import "bytes"

// Format is a format of files that are often taken for tiles.
type Format struct {
	// Name is gzip, zlib, zstd, sqlite, pmtiles, png or json.
	Name string
	// Title is what it is, in a few words.
	Title string
	// Sentence is what the bytes are.
	Sentence string
	// Remedy is what to do about it.
	Remedy string
}

// How many bytes are looked at, as bindings/README.md of the repository says.
const headBytes = 1024

const lastWireCode = 111

// FormatOf is the format that the bytes of a tile begin as, where its fault is one of the bytes (101 to 111); nil for any other.
func FormatOf(fault *Fault, tile []byte) *Format {
	if fault.Code > lastWireCode {
		return nil
	}
	head := tile
	if len(head) > headBytes {
		head = head[:headBytes]
	}
	for at := range formats {
		if formats[at].holds(head) {
			return &formats[at].format
		}
	}
	return nil
}

// formatRule says that bytes are of the format where they begin with one of begins, each of after in front of them passed over.
type formatRule struct {
	format        Format
	begins, after []string
}

func (it *formatRule) holds(head []byte) bool {
	for skipped := firstOf(it.after, head); skipped > 0; skipped = firstOf(it.after, head) {
		head = head[skipped:]
	}
	return firstOf(it.begins, head) > 0
}

// firstOf is the length of the first of these texts that the bytes begin with, or 0.
func firstOf(texts []string, head []byte) int {
	for _, it := range texts {
		if bytes.HasPrefix(head, []byte(it)) {
			return len(it)
		}
	}
	return 0
}
