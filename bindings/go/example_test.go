package mvtgate_test

import (
	"errors"
	"fmt"

	"mvtgate"
)

// A layer of five bytes, none of which are there.
var cutTile = []byte("\x1a\x05")

func ExampleCheck() {
	err := mvtgate.Check(cutTile, mvtgate.ProfilePolygon)
	var fault *mvtgate.Fault
	switch {
	case err == nil:
		fmt.Println("publish it")
	case errors.As(err, &fault):
		fmt.Println("keep it back:", fault)
		fmt.Println(fault.Text())
	default:
		fmt.Println("nothing is known of it:", err)
	}
	// Output:
	// keep it back: 105: In the tile, the payload of field 3 (layers) at byte 0 runs past the end of its message.
	// {"at":0,"code":105,"field":3,"scope":"tile"}
}

func ExampleExplain() {
	packed := []byte("\x1f\x8b\x08\x00")
	var fault *mvtgate.Fault
	if errors.As(mvtgate.Check(packed, mvtgate.ProfilePolygon), &fault) {
		fmt.Println(mvtgate.Explain(fault, packed))
	}
	// Output:
	// 104: Wire type that no tile uses
	// In the tile, field 3 (layers) at byte 0 has a wire type that no tile uses.
	// The bytes begin as gzip's do: this is a packed file, and no tile yet.
	// What to do: unpack it first (`gunzip -c FILE`; `mvtgate-check` does so itself). What is still gzip after it was unpacked was packed twice.
	// (Everything counts from 0: layers, features, polygons, rings, edges, vertices, bytes and the numbers of a list.)
}

func ExampleConfirm() {
	text := []byte(`{"scope": "tile", "code": 105, "at": 0, "field": 3}`) // kept earlier
	fault, err := mvtgate.ParseFault(text)
	if err != nil {
		fmt.Println(err)
		return
	}
	fmt.Println(mvtgate.Confirm(cutTile, fault, mvtgate.ProfilePolygon))
	// Output: true <nil>
}

func ExampleFaults() {
	tile := []byte("\x1a\x05\x78\x01\x0a\x01a\x1a\x05\x78\x01\x0a\x01b") // two layers of version 1
	all, err := mvtgate.Faults(tile, mvtgate.ProfilePolygon)
	if err != nil {
		fmt.Println(err)
		return
	}
	for _, fault := range all {
		fmt.Println(fault)
	}
	// Output:
	// 201: The version of layer 0 isn't 2.
	// 201: The version of layer 1 isn't 2.
}

func ExampleMend() {
	// a layer with one feature, a square that is wound as a hole is
	tile := []byte("\x1a\x16\x78\x02\x0a\x01a\x12\x0f\x18\x03\x22\x0b\x09\x00\x00\x1a\x00\x14\x14\x00\x00\x13\x0f")
	fmt.Println(mvtgate.Check(tile, mvtgate.ProfilePolygon))
	mended, err := mvtgate.Mend(tile, mvtgate.ProfilePolygon)
	if err != nil {
		fmt.Println("refused:", err)
		return
	}
	fmt.Println(mvtgate.Check(mended.Tile, mvtgate.ProfilePolygon))
	for _, it := range mended.Changes {
		fmt.Printf("feature %d of layer %d: twice its area was %v, is %v\n", it.Feature, it.Layer, it.Before.DoubledArea, it.After.DoubledArea)
	}
	// Output:
	// 503: Ring 0 of feature 0 of layer 0, the first one, is a hole by its winding.
	// <nil>
	// feature 0 of layer 0: twice its area was -200, is 200
}

func ExampleDump() {
	text, err := mvtgate.Dump([]byte("\x1a\x05\x78\x02\x0a\x01a"))
	fmt.Println(string(text), err)
	// Output: {"layers":[{"extent":4096,"features":[],"keys":[],"name":"a","values":[],"version":2}]} <nil>
}

func ExampleAdvise() {
	advice, err := mvtgate.Advise([]byte("\x1a\x05\x78\x02\x0a\x01a"))
	fmt.Println(advice, err)
	// Output: [no_feature: Layer 0 has no feature.] <nil>
}
