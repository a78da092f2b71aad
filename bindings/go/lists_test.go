package mvtgate_test

import (
	"bytes"
	"fmt"
	"strings"
	"testing"

	"mvtgate"
)

// subject is what a fault is about, of which each has one fault, in the order of faults.
func subject(fault *mvtgate.Fault) [3]uint64 {
	layer, _ := fault.InLayer()
	feature, isOfFeature := fault.InFeature()
	switch {
	case fault.Scope != "":
		return [3]uint64{}
	case isOfFeature:
		return [3]uint64{2, layer, feature}
	default:
		return [3]uint64{1, layer, 0}
	}
}

func isLess(a, b [3]uint64) bool {
	for at := range a {
		if a[at] != b[at] {
			return a[at] < b[at]
		}
	}
	return false
}

func expectList(t *testing.T, it sample, profile mvtgate.Profile, first *mvtgate.Fault, listed []*mvtgate.Fault) {
	t.Helper()
	if (len(listed) == 0) != it.isValid() || len(listed) > 0 && *listed[0] != *first {
		t.Fatal(listed, first)
	}
	for at, fault := range listed {
		if !isTrue(t, it.tile, fault, profile) || at > 0 && !isLess(subject(listed[at-1]), subject(fault)) {
			t.Fatal(fault)
		}
	}
}

func TestAListBeginsWithTheFaultOfCheck(t *testing.T) {
	eachSample(t, func(t *testing.T, it sample, profile mvtgate.Profile) {
		listed, err := mvtgate.Faults(it.tile, profile)
		quick, quickErr := mvtgate.FaultsQuickly(it.tile, profile)
		if err != nil || quickErr != nil {
			t.Fatal(err, quickErr)
		}
		expectList(t, it, profile, faultOf(t, mvtgate.Check(it.tile, profile)), listed)
		expectList(t, it, profile, faultOf(t, mvtgate.CheckQuickly(it.tile, profile)), quick)
	})
}

func block(key byte, payload ...byte) []byte {
	return append([]byte{key, byte(len(payload))}, payload...)
}

func feature(kind byte, numbers ...byte) []byte {
	return block(0x12, append([]byte{0x18, kind}, block(0x22, numbers...)...)...)
}

func layer(version byte, name string, features ...[]byte) []byte {
	payload := append([]byte{0x78, version}, block(0x0a, []byte(name)...)...)
	return block(0x1a, append(payload, bytes.Join(features, nil)...)...)
}

// byHand is three layers of one name, with a wrong version, and features with and without faults.
func byHand() []byte {
	point, noPoint := feature(1, 9, 50, 34), feature(1, 1, 50, 34)
	// two squares with the corners (0, 0) and (10, 10), and (5, 5) and (15, 15)
	squares := feature(3, 9, 0, 0, 26, 20, 0, 0, 20, 19, 0, 15, 9, 10, 9, 26, 20, 0, 0, 20, 19, 0, 15)
	return bytes.Join([][]byte{layer(2, "a", noPoint, point, squares), layer(1, "a", point, noPoint), layer(2, "a")}, nil)
}

func TestATileThatIsMadeByHandHasTheseFaults(t *testing.T) {
	byPolygon := []string{
		`{"code":201,"layer":1}`,
		`{"code":202,"first":0,"second":2}`,
		`{"code":402,"feature":0,"index":0,"layer":0}`,
		`{"code":402,"feature":1,"index":0,"layer":1}`,
	}
	byFeature := append(append([]string(nil), byPolygon[:3]...), `{"code":507,"feature":2,"layer":0,"other":1,"polygon":0,"vertex":2}`, byPolygon[3])
	for profile, wanted := range map[mvtgate.Profile][]string{mvtgate.ProfilePolygon: byPolygon, mvtgate.ProfileFeature: byFeature} {
		listed, err := mvtgate.Faults(byHand(), profile)
		if err != nil {
			t.Fatal(err)
		}
		var found []string
		for _, it := range listed {
			found = append(found, it.Text())
		}
		if strings.Join(found, "\n") != strings.Join(wanted, "\n") {
			t.Errorf("%v: %s", profile, strings.Join(found, "\n"))
		}
	}
}

func TestTextsThatAreLongerThanTheirFirstRoomAreWhole(t *testing.T) {
	faulty := bytes.Repeat(layer(1, ""), 3000)
	listed, err := mvtgate.Faults(faulty, mvtgate.ProfilePolygon)
	if err != nil || len(listed) != 3000 {
		t.Fatal(len(listed), err)
	}
	for at, it := range listed {
		if *it != (mvtgate.Fault{Code: 201, Layer: uint64(at)}) {
			t.Fatal(at, it)
		}
	}
	tile := bytes.Repeat(layer(2, ""), 1000)
	one := `{"extent":4096,"features":[],"keys":[],"name":"","values":[],"version":2}`
	wanted := `{"layers":[` + strings.Repeat(one+",", 999) + one + `]}`
	if text, err := mvtgate.Dump(tile); err != nil || string(text) != wanted {
		t.Error("another dump", err)
	}
	advice, err := mvtgate.Advise(tile)
	if err != nil || len(advice) != 1000 {
		t.Fatal(len(advice), err)
	}
	for at, it := range advice {
		if it != (mvtgate.Advice{Kind: "no_feature", Layer: uint64(at)}) {
			t.Fatal(at, it)
		}
	}
}

func TestEachKindOfAdvice(t *testing.T) {
	key := func(text string) []byte { return block(0x1a, []byte(text)...) }
	withID := block(0x12, append([]byte{0x08, 7, 0x18, 1}, block(0x22, 9, 50, 34)...)...)
	for _, it := range []struct {
		tile   []byte
		wanted mvtgate.Advice
		said   string
	}{
		{nil, mvtgate.Advice{Kind: "no_layer"}, "no_layer: The tile has no layer."},
		{layer(2, "a"), mvtgate.Advice{Kind: "no_feature"}, "no_feature: Layer 0 has no feature."},
		{layer(2, "a", feature(1, 9, 50, 34), key("k"), key("l"), key("k")), mvtgate.Advice{Kind: "equal_key", Second: 2}, "equal_key: In layer 0, key 2 is the same as key 0."},
		{layer(2, "a", withID, withID), mvtgate.Advice{Kind: "equal_id", Second: 1}, "equal_id: In layer 0, feature 1 has the same id as feature 0."},
	} {
		advice, err := mvtgate.Advise(it.tile)
		if err != nil || fmt.Sprint(advice) != "["+it.said+"]" || advice[0] != it.wanted {
			t.Error(advice, err)
			continue
		}
		words := advice[0].Explain()
		if strings.Count(words, "\n") != 4 || strings.ContainsAny(words, "{}") || advice[0].Place() == "" {
			t.Error(words)
		}
	}
}
