package mvtgate

import "testing"

// eachText calls a function with a text for each code, and for each scope of wire faults.
func eachText(of func(text string)) {
	for code := range wordsOfFaults {
		scopes := []Scope{""}
		if code <= lastWireCode {
			scopes = []Scope{ScopeTile, ScopeLayer, ScopeValue, ScopeFeature}
		}
		for _, scope := range scopes {
			fault := Fault{Code: code, Scope: scope, At: 1, Field: 2, Layer: 3, Feature: 4, Value: 5, Index: 6, Polygon: 7, Ring: 8, Vertex: 9, Other: 10}
			fault.FirstLayer, fault.SecondLayer, fault.FirstEdge, fault.SecondEdge = 11, 12, RingEdge{13, 0}, RingEdge{15, 1<<64 - 1}
			fault.X, fault.Y, fault.W = "-170141183460469231731687303715884105728", "0", "16"
			of(fault.Text())
		}
	}
}

func TestTheLibrarysSpellingIsReadWithoutJSON(t *testing.T) {
	eachText(func(text string) {
		if fault := readSpelled([]byte(text)); fault == nil || fault.Text() != text {
			t.Error(text, fault)
		}
	})
}

func TestNoOtherSpellingIsReadWithoutJSON(t *testing.T) {
	eachText(func(text string) {
		for at := range text {
			if fault := readSpelled([]byte(text[:at])); fault != nil {
				t.Error(text[:at], fault)
			}
			for _, letter := range `0"} \` {
				other := text[:at] + string(letter) + text[at:]
				if fault := readSpelled([]byte(other)); fault != nil && fault.Text() != other {
					t.Error(other, fault)
				}
			}
		}
	})
}
