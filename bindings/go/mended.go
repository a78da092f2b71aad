package mvtgate

import (
	"encoding/json"
	"math/big"
)

// Mended is a valid tile, and what was changed for it.
type Mended struct {
	// Tile is the tile's bytes: the very slice that was handed over where that was valid.
	Tile []byte
	// Changes says what became of each feature that had a fault, in the order of the features: nothing where the tile was valid.
	Changes []Change
}

// Change is what became of a feature that had a fault. All ordinals count from 0, in the tile as it was.
type Change struct {
	// Layer is the ordinal of its layer among the tile's layers, Feature its own among the features of the layer.
	Layer, Feature uint64
	// Dropped says that it couldn't be mended, and was left out. What follows is zero then.
	Dropped bool
	// Before and After are what its rings measured, and what they measure now.
	Before, After Measures
	// Crossings is how many crossings of edges were rounded to a position, Cuts how many corners were cut.
	Crossings, Cuts uint64
}

// Measures is what the rings of a feature measure together.
type Measures struct {
	// DoubledArea is twice the area, in square units of the tile's coordinates; that of a hole counts as negative. It is nil of a
	// feature that was left out.
	DoubledArea *big.Int
	// Polygons is how many polygons there are, Vertices how many vertices.
	Polygons, Vertices uint64
}

// What the library writes of a change.
type changeText struct {
	Area      [2]string `json:"area"`
	Crossings uint64    `json:"crossings"`
	Cuts      uint64    `json:"cuts"`
	Feature   uint64    `json:"feature"`
	Layer     uint64    `json:"layer"`
	Polygons  [2]uint64 `json:"polygons"`
	Vertices  [2]uint64 `json:"vertices"`
	What      string    `json:"what"`
}

func (it *changeText) measures(side int) (Measures, bool) {
	area, isNumber := new(big.Int).SetString(it.Area[side], 10)
	return Measures{DoubledArea: area, Polygons: it.Polygons[side], Vertices: it.Vertices[side]}, isNumber
}

func (it *changeText) change() (Change, bool) {
	change := Change{Layer: it.Layer, Feature: it.Feature, Crossings: it.Crossings, Cuts: it.Cuts}
	if it.What == "dropped" {
		change.Dropped = true
		return change, true
	}
	var isNumber [2]bool
	change.Before, isNumber[0] = it.measures(0)
	change.After, isNumber[1] = it.measures(1)
	return change, it.What == "mended" && isNumber == [2]bool{true, true}
}

// readChanges reads the library's report {"changed":[..],"ok":true}.
func readChanges(report []byte) ([]Change, error) {
	var text struct {
		Changed []changeText `json:"changed"`
		OK      bool         `json:"ok"`
	}
	if err := json.Unmarshal(report, &text); err != nil || !text.OK {
		return nil, &VersionError{Said: string(report)}
	}
	changes := make([]Change, len(text.Changed))
	for at := range text.Changed {
		change, isKnown := text.Changed[at].change()
		if !isKnown {
			return nil, &VersionError{Said: string(report)}
		}
		changes[at] = change
	}
	return changes, nil
}
