package mvtgate_test

import (
	"bytes"
	"strings"
	"testing"

	"mvtgate"
)

var wireFault = &mvtgate.Fault{Code: 104, Scope: mvtgate.ScopeTile, Field: 3}

func nameOf(fault *mvtgate.Fault, tile string) string {
	if format := mvtgate.FormatOf(fault, []byte(tile)); format != nil {
		return format.Name
	}
	return ""
}

func TestEachFormatIsKnownByItsFirstBytes(t *testing.T) {
	for tile, wanted := range map[string]string{
		"\x1f\x8b\x08\x00":               "gzip",
		"\x78\x01":                       "zlib",
		"\x78\x5e":                       "zlib",
		"\x78\x9c":                       "zlib",
		"\x78\xda":                       "zlib",
		"\x28\xb5\x2f\xfd":               "zstd",
		"SQLite format 3\x00":            "sqlite",
		"PMTiles\x03":                    "pmtiles",
		"\x89PNG\r\n\x1a\n":              "png",
		"{}":                             "json",
		"[]":                             "json",
		" \t\r\n{\"type\":\"F\"}":        "json",
		"\xef\xbb\xbf\n[":                "json",
		"":                               "",
		"\x1f":                           "",
		"\x78\x02":                       "",
		"SQLite format 3":                "",
		"PMTile":                         "",
		"<html>":                         "",
		"  ":                             "",
		strings.Repeat(" ", 1023) + "{}": "json",
		strings.Repeat(" ", 1024) + "{}": "",
	} {
		if found := nameOf(wireFault, tile); found != wanted {
			t.Errorf("%q: %q", tile, found)
		}
	}
}

func TestAFormatIsNamedBesideAFaultOfTheBytesAlone(t *testing.T) {
	packed := []byte("\x1f\x8b\x08\x00")
	fault := faultOf(t, mvtgate.Check(packed, mvtgate.ProfilePolygon))
	if fault == nil || !isTrue(t, packed, fault, mvtgate.ProfilePolygon) {
		t.Fatal(fault)
	}
	if format := mvtgate.FormatOf(fault, packed); format == nil || format.Title != "Packed by gzip" || !strings.Contains(format.Remedy, "gunzip") {
		t.Error(format)
	}
	if words := mvtgate.Explain(fault, packed); !strings.Contains(words, "as gzip's do") || strings.Count(words, "\n") != 4 {
		t.Error(words)
	}
	if nameOf(&mvtgate.Fault{Code: 201}, string(packed)) != "" || bytes.Contains([]byte(mvtgate.Explain(fault, nil)), []byte("gzip's do")) {
		t.Error("a format is named without its bytes")
	}
}
