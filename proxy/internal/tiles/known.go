// Package tiles knows which answers are tiles, and how tiles are packed.
package tiles

import (
	"mime"
	"net/http"
	"path"
	"regexp"
	"strings"
)

// MediaType is the registered one of a tile.
const MediaType = "application/vnd.mapbox-vector-tile"

// Known says which answers are tiles: those of a tile's content type, and those at a tile's address, but for pictures, since raster
// tiles have such addresses too.
type Known struct {
	// Paths is what the path of a tile's address matches.
	Paths *regexp.Regexp
	// Types are the content types of tiles, in small letters and without parameters.
	Types map[string]bool
}

// IsAddress says whether a path is that of a tile's address, also in a spelling that servers take for the same, as /a//b and /a/x/../b.
func (it *Known) IsAddress(of string) bool {
	return it.Paths.MatchString(of) || it.Paths.MatchString(path.Clean(of))
}

// IsType says whether the content type of an answer is that of a tile.
func (it *Known) IsType(header http.Header) bool { return it.Types[typeOf(header)] }

// IsTile says whether an answer with a body is a tile.
func (it *Known) IsTile(of string, header http.Header) bool {
	return it.IsType(header) || it.IsAddress(of) && !strings.HasPrefix(typeOf(header), "image/")
}

func typeOf(header http.Header) string {
	declared := header.Get("Content-Type")
	if name, _, err := mime.ParseMediaType(declared); err == nil {
		return name
	}
	name, _, _ := strings.Cut(declared, ";")
	return strings.ToLower(strings.TrimSpace(name))
}
