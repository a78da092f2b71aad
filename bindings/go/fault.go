package mvtgate

import "math/big"

// Scope is the message of a tile that a wire fault is in.
type Scope string

// The scopes of wire faults.
const (
	ScopeTile    Scope = "tile"
	ScopeLayer   Scope = "layer"
	ScopeValue   Scope = "value"
	ScopeFeature Scope = "feature"
)

// RingEdge is an edge of a ring. Edge i goes from vertex i to the next one, the last edge back to vertex 0.
type RingEdge struct {
	// Ring is the ordinal of the ring among all rings of the feature.
	Ring uint64
	// Edge is the ordinal of the edge in its ring.
	Edge uint64
}

// Fault is what is wrong with a tile, and where. It is an error: its message is the code and a sentence for a log. [Fault.Text] is
// the JSON text, which keeps all of the fault: store that one where the fault is to be confirmed later.
//
// All ordinals count from 0: layers in the tile, features in their layer, polygons and rings in their feature, edges and vertices
// in their ring. A member that a fault of the code doesn't have is zero. Two faults are the same where their values are (==). Any
// value may be built: it says nothing of a tile until [Confirm] says so.
type Fault struct {
	// Code is the number of the cause, from 101 to 507. docs/FAULTS.md of the repository has a section for each.
	Code int
	// Scope (101 to 111) is the message that the fault is in: the tile, a layer, a value or a feature.
	Scope Scope
	// At (101 to 111) is the offset in bytes, from the tile's first byte.
	At uint64
	// Field (101 to 111) is the number of the field, or 0 where the fault is about no field with a number.
	Field uint32
	// Layer is the layer that the fault is in; not that of 202, nor of a wire fault of the tile itself. See [Fault.InLayer].
	Layer uint64
	// Feature is the feature that the fault is in. See [Fault.InFeature].
	Feature uint64
	// Value (101 to 111, in a value) is the value's ordinal among those of the layer.
	Value uint64
	// Index (301 to 406) is the place in the list of tags or of geometry numbers; the list's length where it ends too early.
	Index uint64
	// Polygon (504 to 507) is the polygon; of 504 that of the second edge.
	Polygon uint64
	// Ring (501 to 503, 505, 506) is the ring, among all rings of the feature.
	Ring uint64
	// Vertex (505 to 507) is the vertex of that ring, or of the polygon's exterior (507).
	Vertex uint64
	// Other is the other hole's ring (506), or the other polygon (507).
	Other uint64
	// FirstLayer and SecondLayer (202) have one name.
	FirstLayer, SecondLayer uint64
	// FirstEdge and SecondEdge (504) meet at (X / W, Y / W). See [Fault.Point].
	FirstEdge, SecondEdge RingEdge
	// X, Y and W (504) are whole numbers of up to 94 bits, in decimal digits as the text has them.
	X, Y, W string
}

// InLayer is the layer that the fault is in, if it is in one. Of two layers with one name it is the second.
func (it *Fault) InLayer() (layer uint64, isThere bool) {
	switch {
	case it.Code == 202:
		return it.SecondLayer, true
	case it.Scope == ScopeTile:
		return 0, false
	default:
		return it.Layer, true
	}
}

// InFeature is the feature that the fault is in, if it is in one.
func (it *Fault) InFeature() (feature uint64, isThere bool) {
	if it.Scope == ScopeFeature || it.Code > 300 {
		return it.Feature, true
	}
	return 0, false
}

// Point is the exact point where two edges meet (504), in units of the tile's grid; nil for other codes.
func (it *Fault) Point() (x, y *big.Rat) {
	if it.Code != 504 {
		return nil, nil
	}
	return quotient(it.X, it.W), quotient(it.Y, it.W)
}

// quotient is that of two numbers in digits, or nil where there is none.
func quotient(number, by string) *big.Rat {
	above, isNumber := new(big.Int).SetString(number, 10)
	below, isNumberToo := new(big.Int).SetString(by, 10)
	if !isNumber || !isNumberToo || below.Sign() == 0 {
		return nil
	}
	return new(big.Rat).SetFrac(above, below)
}

// Error is the code, and a sentence with the place.
func (it *Fault) Error() string { return codeText(it.Code) + ": " + it.Sentence() }
