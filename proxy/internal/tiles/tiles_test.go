package tiles

import (
	"bytes"
	"encoding/binary"
	"encoding/json"
	"errors"
	"io"
	"net/http"
	"os"
	"path/filepath"
	"testing"

	"mvtgate"
)

func asked(values ...string) http.Header {
	header := http.Header{}
	for _, it := range values {
		header.Add("Accept-Encoding", it)
	}
	return header
}

func TestOnlyEncodingsThatCanBeUnpackedAreAskedFor(t *testing.T) {
	for taken, wanted := range map[string]string{
		"gzip":                       "gzip",
		"br, gzip;q=0.5, zstd":       "gzip;q=0.5",
		"deflate, GZIP":              "deflate, GZIP",
		"br":                         "identity",
		"*":                          "identity",
		"":                           "identity",
		"identity;q=0, gzip;q=1.0":   "identity;q=0, gzip;q=1.0",
		"compress;q=0.5, x-gzip;q=1": "x-gzip;q=1",
	} {
		header := asked(taken)
		Narrow(header)
		if found := header.Get("Accept-Encoding"); found != wanted {
			t.Errorf("%q: %q", taken, found)
		}
	}
	header := asked()
	Narrow(header)
	if len(header) != 0 {
		t.Error(header)
	}
}

func TestWhatAClientTakes(t *testing.T) {
	for taken, wanted := range map[string]bool{
		"gzip": true, "GZIP;q=0.1": true, "br, x-gzip": true, "*": true, "*;q=0.5": true, "gzip;q=0, *": false, "gzip;q=0": false,
		"br": false, "": false, "gzip;q=x": false, "*;q=0": false, "deflate": false,
	} {
		if Takes(asked(taken), "gzip") != wanted {
			t.Error(taken)
		}
	}
	if !Takes(asked("identity;q=0"), "") || Takes(asked(), "gzip") || !Takes(asked("br", "gzip"), "gzip") {
		t.Error("of several headers, or of none")
	}
}

func TestHowAnAnswerIsPacked(t *testing.T) {
	for declared, wanted := range map[string]string{"": "", "identity": "", "gzip": "gzip", " X-GZIP ": "gzip", "deflate": "deflate"} {
		if found, isKnown := EncodingOf(http.Header{"Content-Encoding": {declared}}); found != wanted || !isKnown {
			t.Error(declared, found)
		}
	}
	for _, declared := range [][]string{{"br"}, {"gzip, gzip"}, {"gzip", "gzip"}, {"zstd"}} {
		if _, isKnown := EncodingOf(http.Header{"Content-Encoding": declared}); isKnown {
			t.Error(declared)
		}
	}
}

func unpack(packed []byte, encoding string) (all []byte, err error) {
	err = Unpacked(packed, encoding, func(source io.Reader) (err error) {
		all, err = io.ReadAll(source)
		return err
	})
	return all, err
}

func TestWhatIsPackedIsUnpackedWhole(t *testing.T) {
	tile := bytes.Repeat([]byte("a tile "), 1000)
	for _, encoding := range []string{"", "gzip", "deflate"} {
		packed, err := Packed(tile, encoding)
		again, _ := Packed(tile, encoding)
		if err != nil || !bytes.Equal(packed, again) {
			t.Fatal(encoding, err)
		}
		if all, err := unpack(packed, encoding); err != nil || !bytes.Equal(all, tile) {
			t.Error(encoding, err)
		}
		for at := range packed {
			if _, err := unpack(packed[:at], encoding); encoding != "" && !errors.Is(err, ErrPacking) {
				t.Error(encoding, at, err)
			}
		}
		for _, more := range [][]byte{packed, []byte("more")} {
			if _, err := unpack(bytes.Join([][]byte{packed, more}, nil), encoding); encoding != "" && !errors.Is(err, ErrPacking) {
				t.Error(encoding, err)
			}
		}
	}
}

func TestTheNamesOfLayersAreThoseOfTheDump(t *testing.T) {
	paths, err := filepath.Glob("../../../tiles/*.mvt")
	if err != nil || len(paths) < 100 {
		t.Fatal(len(paths), err)
	}
	for _, path := range paths {
		tile, err := os.ReadFile(path)
		if err != nil {
			t.Fatal(err)
		}
		text, err := mvtgate.Dump(tile)
		if err != nil {
			// (no tile; whatever it says, it ends)
			LayerName(tile, 1)
			continue
		}
		var dumped struct{ Layers []struct{ Name string } }
		if err := json.Unmarshal(text, &dumped); err != nil {
			t.Fatal(err)
		}
		for ordinal, layer := range dumped.Layers {
			if name := LayerName(tile, uint64(ordinal)); name != layer.Name {
				t.Errorf("%s: %q, not %q", path, name, layer.Name)
			}
		}
		if LayerName(tile, uint64(len(dumped.Layers))) != "" {
			t.Error(path)
		}
	}
}

func TestAVeryLongNameIsNotTold(t *testing.T) {
	for length, wanted := range map[int]int{mostName: mostName, mostName + 1: 0, 1 << 20: 0} {
		layer := append(binary.AppendUvarint([]byte{nameField<<3 | lengthDelimited}, uint64(length)), make([]byte, length)...)
		tile := append(binary.AppendUvarint([]byte{layersField<<3 | lengthDelimited}, uint64(len(layer))), layer...)
		if got := len(LayerName(tile, 0)); got != wanted {
			t.Error(length, got)
		}
	}
}
