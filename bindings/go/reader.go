package mvtgate

import "bytes"

// readSpelled is the fault of a text as [Fault.Text] and the library spell it: no space, no escape, the keys in their order. It is nil
// for any other text. A reader of JSON takes many times as long, and a list can have a million faults.
func readSpelled(text []byte) *Fault {
	fault := new(Fault)
	// (the code and the scope say which keys there are)
	if _, rest, _ := bytes.Cut(text, []byte(`"code":`)); !(&reader{rest}).value(&fault.Code) {
		return nil
	}
	if fault.hasScope() {
		if _, rest, _ := bytes.Cut(text, []byte(`"scope":`)); !(&reader{rest}).value(&fault.Scope) {
			return nil
		}
	}
	from, before := reader{text}, `{"`
	members := fault.members()
	for _, it := range members {
		if !(from.take(before) && from.take(it.key) && from.take(`":`) && from.value(it.at)) {
			return nil
		}
		before = `,"`
	}
	if members == nil || string(from.rest) != "}" {
		return nil
	}
	return fault
}

// reader is what is left of a text. Each call takes what it says from the front, and says whether that was there.
type reader struct {
	rest []byte
}

func (it *reader) take(expected string) bool {
	if len(it.rest) < len(expected) || string(it.rest[:len(expected)]) != expected {
		return false
	}
	it.rest = it.rest[len(expected):]
	return true
}

// value takes that of a member into its place.
func (it *reader) value(at any) bool {
	switch at := at.(type) {
	case *RingEdge:
		return it.take(`{"edge":`) && it.value(&at.Edge) && it.take(`,"ring":`) && it.value(&at.Ring) && it.take("}")
	case *Scope:
		return it.quoted((*string)(at))
	case *string:
		return it.quoted(at) && isWideNumber(*at)
	default:
		digits := 0
		for digits < len(it.rest) && '0' <= it.rest[digits] && it.rest[digits] <= '9' {
			digits++
		}
		number := it.rest[:digits]
		it.rest = it.rest[digits:]
		hasZeroInFront := digits > 1 && number[0] == '0'
		return !hasZeroInFront && (&member{at: at}).read(number)
	}
}

// quoted takes a text between quotes in which nothing is escaped.
func (it *reader) quoted(into *string) bool {
	if !it.take(`"`) {
		return false
	}
	text, rest, isClosed := bytes.Cut(it.rest, []byte{'"'})
	*into, it.rest = string(text), rest
	return isClosed && bytes.IndexByte(text, '\\') < 0
}
