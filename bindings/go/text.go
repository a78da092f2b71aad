package mvtgate

import (
	"encoding/json"
	"math/big"
	"sort"
	"strconv"
)

// member is one of a fault's text: its key, and where the fault has it, as a *int, *uint32, *uint64, *Scope, *RingEdge, or a *string
// for a number that a reader of JSON might round.
type member struct {
	key string
	at  any
}

// members is those of a fault of this code and scope, in the order of the text, which is that of the keys' bytes; nil where there
// is no such fault.
func (it *Fault) members() []member {
	known := wordsOfFaults[it.Code]
	if known == nil {
		return nil
	}
	keys := known.keys
	if it.hasScope() {
		more, isKnown := scopeKeys[it.Scope]
		if !isKnown {
			return nil
		}
		keys = append(append([]string(nil), keys...), more...)
		sort.Strings(keys)
	}
	members := make([]member, len(keys))
	for at, key := range keys {
		members[at] = member{key, it.place(key)}
	}
	return members
}

// hasScope says whether it is a wire fault, which alone has a scope.
func (it *Fault) hasScope() bool { return 0 < it.Code && it.Code <= lastWireCode }

// place is where the fault has what its text has under a key.
func (it *Fault) place(key string) any {
	switch key {
	case "at":
		return &it.At
	case "code":
		return &it.Code
	case "scope":
		return &it.Scope
	case "field":
		return &it.Field
	case "first", "second":
		return it.pair(key == "first")
	case "w":
		return &it.W
	case "x":
		return &it.X
	case "y":
		return &it.Y
	default:
		return it.ordinal(key)
	}
}

// pair is one of two layers with one name (202), or of two edges that meet (504).
func (it *Fault) pair(isFirst bool) any {
	switch {
	case it.Code == 202 && isFirst:
		return &it.FirstLayer
	case it.Code == 202:
		return &it.SecondLayer
	case isFirst:
		return &it.FirstEdge
	default:
		return &it.SecondEdge
	}
}

func (it *Fault) ordinal(key string) *uint64 {
	switch key {
	case "feature":
		return &it.Feature
	case "index":
		return &it.Index
	case "layer":
		return &it.Layer
	case "other":
		return &it.Other
	case "polygon":
		return &it.Polygon
	case "ring":
		return &it.Ring
	case "value":
		return &it.Value
	default:
		return &it.Vertex
	}
}

// Text is the fault as JSON, to the byte as `mvtgate check` writes it, without the line's end. It has at most 384 bytes. Of a value
// that is no fault, since no fault has the code or the scope, it is "{}".
func (it *Fault) Text() string {
	text := make([]byte, 0, textRoom)
	for _, member := range it.members() {
		text = append(text, ",\""...)
		text = append(append(text, member.key...), "\":"...)
		text = member.append(text)
	}
	if len(text) == 0 {
		return "{}"
	}
	text[0] = '{'
	return string(append(text, '}'))
}

func (it *member) append(text []byte) []byte {
	switch at := it.at.(type) {
	case *int:
		return strconv.AppendInt(text, int64(*at), 10)
	case *uint32:
		return strconv.AppendUint(text, uint64(*at), 10)
	case *uint64:
		return strconv.AppendUint(text, *at, 10)
	case *Scope:
		return strconv.AppendQuote(text, string(*at))
	case *string:
		return strconv.AppendQuote(text, *at)
	default:
		edge := at.(*RingEdge)
		text = strconv.AppendUint(append(text, `{"edge":`...), edge.Edge, 10)
		text = strconv.AppendUint(append(text, `,"ring":`...), edge.Ring, 10)
		return append(text, '}')
	}
}

// MarshalJSON is [Fault.Text].
func (it Fault) MarshalJSON() ([]byte, error) { return []byte(it.Text()), nil }

// UnmarshalJSON reads what [ParseFault] reads, and leaves the fault as it is where the text is null.
func (it *Fault) UnmarshalJSON(text []byte) error {
	if string(text) == "null" {
		return nil
	}
	read, err := ParseFault(text)
	if err == nil {
		*it = *read
	}
	return err
}

// ParseFault is the fault of a text, such as a line of `mvtgate check` that was kept. Spaces, the order of the keys and the spelling of
// strings don't matter, and of equal keys the last one counts: the library reads it first, as [ConfirmText] has it read. The error is
// [ErrNotJSON], [ErrNotAFault] or [ErrFaultRange], or [ErrOutOfMemory].
func ParseFault(text []byte) (*Fault, error) {
	if fault := readSpelled(text); fault != nil {
		return fault, nil
	}
	if _, err := confirmed(nil, text, ProfilePolygon); err != nil {
		return nil, err
	}
	return readFault(text)
}

// readFault is the fault of a text that the library takes for one, or wrote itself.
func readFault(text []byte) (*Fault, error) {
	if fault := readSpelled(text); fault != nil {
		return fault, nil
	}
	var found map[string]json.RawMessage
	fault := new(Fault)
	if json.Unmarshal(text, &found) == nil && fault.readMembers(found) {
		return fault, nil
	}
	return nil, &VersionError{Said: string(text)}
}

// readMembers takes all members of a fault, and says whether they are those of one.
func (it *Fault) readMembers(found map[string]json.RawMessage) bool {
	if !(&member{"code", &it.Code}).read(found["code"]) {
		return false
	}
	if it.hasScope() && !(&member{"scope", &it.Scope}).read(found["scope"]) {
		return false
	}
	members := it.members()
	if members == nil || len(members) != len(found) {
		return false
	}
	for at := range members {
		if !members[at].read(found[members[at].key]) {
			return false
		}
	}
	return true
}

// read takes the member's value out of its JSON text, and says whether it is one that a fault may have.
func (it *member) read(text json.RawMessage) bool {
	switch at := it.at.(type) {
	case *int:
		number, err := strconv.ParseUint(string(text), 10, 16)
		*at = int(number)
		return err == nil
	case *uint32:
		number, err := strconv.ParseUint(string(text), 10, 32)
		*at = uint32(number)
		return err == nil
	case *uint64:
		number, err := strconv.ParseUint(string(text), 10, 64)
		*at = number
		return err == nil
	case *Scope:
		return len(text) > 0 && text[0] == '"' && json.Unmarshal(text, (*string)(at)) == nil
	case *string:
		return len(text) > 0 && text[0] == '"' && json.Unmarshal(text, at) == nil && isWideNumber(*at)
	default:
		return readEdge(text, at.(*RingEdge))
	}
}

func readEdge(text json.RawMessage, edge *RingEdge) bool {
	var found map[string]json.RawMessage
	return json.Unmarshal(text, &found) == nil && len(found) == 2 &&
		(&member{"edge", &edge.Edge}).read(found["edge"]) && (&member{"ring", &edge.Ring}).read(found["ring"])
}

// isWideNumber says whether these are the digits of a number from -2^127 to 2^127 - 1, written in the one way.
func isWideNumber(digits string) bool {
	number, isNumber := new(big.Int).SetString(digits, 10)
	if len(digits) > 40 || !isNumber || number.String() != digits {
		return false
	}
	if number.Sign() < 0 {
		number.Not(number)
	}
	return number.BitLen() <= 127
}

// faultOfLibrary is the fault of a text that the library wrote, as an error.
func faultOfLibrary(text []byte) error {
	fault, err := readFault(text)
	if err != nil {
		return err
	}
	return fault
}
