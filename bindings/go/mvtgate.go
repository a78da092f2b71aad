package mvtgate

import (
	"bytes"
	"encoding/json"
)

const (
	// In bytes: room for the lines of some hundred faults. A longer list has one of its own length.
	listRoom = 65536
	// In bytes: room for what a mended tile may have beyond the bytes of the one that was refused, and for the report on it.
	moreRoom = 4096
	// In bytes: the longest room that a dump begins with. A longer text has one of its own length.
	dumpRoom = 16 << 20
)

// Check is nil where the bytes are a valid tile by the profile. Otherwise it is the tile's first [*Fault], or [ErrOutOfMemory].
// Where several pairs of edges of one polygon meet, any one of these is reported. For a profile that isn't one of the two it is an
// error that says so, and a [*VersionError] where the library that is linked is of another version.
//
// So nil alone says that a tile may be published. Take the fault out by [errors.As].
func Check(tile []byte, profile Profile) error {
	return judged(check, tile, profile)
}

// CheckQuickly is the same in bounded time by both profiles, for whoever judges tiles of others.
//
// By [ProfileFeature] the fault may be another one of the same feature, where edges of the feature's polygons meet: any meeting. It
// is true all the same, the same tiles are valid, and no true fault is of an earlier layer or feature. By [ProfilePolygon] the
// answer is that of [Check].
func CheckQuickly(tile []byte, profile Profile) error {
	return judged(checkQuickly, tile, profile)
}

// CheckNotEmpty is [Check] of a tile that has to have bytes. Zero bytes are a valid tile, and also what a failed read leaves: where
// that may be, they are [ErrEmpty] here.
func CheckNotEmpty(tile []byte, profile Profile) error {
	if len(tile) == 0 {
		return ErrEmpty
	}
	return Check(tile, profile)
}

// Faults is all that is to be mended in a tile, in the order of the faults: of each layer with a fault of its version or its name
// the first one, and of each feature with any fault the first one. The first of the list is the fault of [Check]. There is none
// exactly where the tile is valid, and one alone where the bytes are no tile.
func Faults(tile []byte, profile Profile) ([]*Fault, error) {
	return listed(faults, tile, profile)
}

// FaultsQuickly is the same list with the fault of [CheckQuickly] for each feature, in the time of that call.
func FaultsQuickly(tile []byte, profile Profile) ([]*Fault, error) {
	return listed(faultsQuickly, tile, profile)
}

func listed(call judge, tile []byte, profile Profile) ([]*Fault, error) {
	text, _, err := written(call, tile, profile, listRoom)
	if err != nil {
		return nil, err
	}
	list := make([]*Fault, 0, bytes.Count(text, []byte{'\n'}))
	for len(text) > 0 {
		line, rest, _ := bytes.Cut(text, []byte{'\n'})
		fault, err := readFault(line)
		if err != nil {
			return nil, err
		}
		list = append(list, fault)
		text = rest
	}
	return list, nil
}

// Confirm says whether a fault is true of a tile by a profile, by a checker that shares no search with [Check]. It takes no memory
// for the tile, so that a process may doubt another one's fault at little cost.
func Confirm(tile []byte, fault *Fault, profile Profile) (bool, error) {
	return ConfirmText(tile, []byte(fault.Text()), profile)
}

// ConfirmText is the same for the text of a fault, in any spelling of its JSON. The error is [ErrNotJSON], [ErrNotAFault] or
// [ErrFaultRange] where the text isn't that of a fault.
func ConfirmText(tile, text []byte, profile Profile) (bool, error) {
	return confirmed(tile, text, profile)
}

// Dump is what a tile holds, as JSON: the text of `mvtgate dump`. It asks only that the bytes are a tile, not that it is valid;
// where they aren't, the error is their first [*Fault], of code 101 to 111.
func Dump(tile []byte) (json.RawMessage, error) {
	// (a number of one byte becomes two or three characters; the names of members come on top)
	first := 4*len(tile) + textRoom
	if first > dumpRoom {
		first = dumpRoom
	}
	text, err := described(dump, tile, first)
	return trimmed(text), err
}

// Advise is what no rule forbids in a tile and may still be a mistake, in the order of the layers; often nothing. Like [Dump] it
// asks only that the bytes are a tile.
func Advise(tile []byte) ([]Advice, error) {
	text, err := described(advise, tile, textRoom)
	if err != nil {
		return nil, err
	}
	return readAdvice(text)
}

func described(call judge, tile []byte, first int) ([]byte, error) {
	text, isFault, err := written(call, tile, ProfilePolygon, first)
	if err == nil && isFault {
		return nil, faultOfLibrary(text)
	}
	return text, err
}

// Mend makes a valid tile in place of one whose polygons break the rules, with all else byte for byte as it was, and says what it
// changed. A valid tile comes back as the slice that it is.
//
// What is mended are features of polygons with a fault of 501 to 507, or 402 or 406. Each vertex of a mended feature is within 2
// units of one of its old edges, along both axes. Where the tile has another fault, or a feature can't be mended, the tile is
// refused: the error is its [*Fault].
//
// By [ProfileFeature] this can take the square of the vertices, also after a quick check: bound the tile's length.
func Mend(tile []byte, profile Profile) (*Mended, error) {
	return mend(tile, profile, false)
}

// MendOrDrop is the same, but features that can't be mended are left out, and named among the changes. So a tile with no other
// faults than those of polygons always comes out valid.
//
// By [ProfileFeature] this can take the square of the vertices, also after a quick check: bound the tile's length.
func MendOrDrop(tile []byte, profile Profile) (*Mended, error) {
	return mend(tile, profile, true)
}

func mend(tile []byte, profile Profile, drop bool) (*Mended, error) {
	wanted, reportWanted := len(tile)+moreRoom, moreRoom
	for {
		out, report := make([]byte, wanted), make([]byte, reportWanted)
		status, length, reportLength := mendedOnce(tile, profile, drop, out, report)
		switch {
		case status == statusOK:
			return &Mended{Tile: tile}, nil
		case status == statusNo:
			return nil, faultOfLibrary(report[:reportLength])
		case status == statusMended:
			changes, err := readChanges(report[:reportLength])
			return &Mended{Tile: trimmed(out[:length]), Changes: changes}, err
		case status == statusNoRoom && (length > wanted || reportLength > reportWanted):
			wanted, reportWanted = length, reportLength
		default:
			return nil, failure(status, profile)
		}
	}
}

// trimmed is the same bytes, in a room of their own where they fill less than half of theirs: who keeps them keeps all of it.
func trimmed(it []byte) []byte {
	if len(it) < cap(it)/2 {
		return append([]byte{}, it...)
	}
	return it
}
