package mvtgate_test

import (
	"encoding/json"
	"errors"
	"flag"
	"math"
	"strings"
	"testing"

	"mvtgate"
)

func TestOnlyTheTextOfAFaultIsRead(t *testing.T) {
	for _, text := range []string{
		`{}`,
		`null`,
		`[]`,
		`{"ok":true}`,
		`{"code":201,"layer":-1}`,
		`{"code":201,"layer":1e3}`,
		`{"code":201,"layer":1.0}`,
		`{"code":201,"layer":"0"}`,
		`{"code":201,"layer":null}`,
		`{"code":"201","layer":0}`,
		`{"code":201,"layer":18446744073709551616}`,
		`{"code":201,"layer":0,"feature":0}`,
		`{"code":201}`,
		`{"code":200,"layer":0}`,
		`{"code":65737,"layer":0}`,
		`{"code":305,"feature":0,"index":0,"layer":0}`,
		`{"at":0,"code":112,"field":0,"scope":"tile"}`,
		`{"at":0,"code":101,"field":0,"layer":0,"scope":"tile"}`,
		`{"at":0,"code":101,"field":18446744073709551616,"scope":"tile"}`,
		`{"code":201,"layer":-0}`,
		`{"code":201,"layer":3,"layer":null}`,
		`{"at":0,"code":101,"field":0,"scope":"layer"}`,
		`{"at":0,"code":101,"field":0,"scope":7}`,
		`{"at":0,"code":101,"feature":0,"field":0,"layer":0,"scope":"value","value":0}`,
		`{"code":505,"feature":0,"layer":0,"other":0,"polygon":0,"ring":1,"vertex":0}`,
		`{"code":506,"feature":0,"layer":0,"polygon":0,"ring":1,"vertex":0}`,
		`{"code":507,"feature":0,"layer":0,"other":0,"polygon":0,"ring":1,"vertex":0}`,
		`{"code":504,"feature":0,"first":{"edge":0,"ring":0},"layer":0,"polygon":0,"second":{"edge":2,"ring":0},"w":1,"x":"8","y":"8"}`,
		`{"code":504,"feature":0,"first":{"edge":0,"ring":0},"layer":0,"polygon":0,"second":{"edge":2},"w":"1","x":"8","y":"8"}`,
		`{"code":504,"feature":0,"first":{"edge":0,"ring":0},"layer":0,"polygon":0,"second":{"edge":2,"ring":0},"w":"1","x":"08","y":"8"}`,
		`{"code":504,"feature":0,"first":{"edge":0,"ring":0},"layer":0,"polygon":0,"second":{"edge":2,"ring":0},"w":"1","x":"-0","y":"8"}`,
		`{"code":504,"feature":0,"first":{"edge":0,"ring":0},"layer":0,"polygon":0,"second":{"edge":2,"ring":0},"w":"1","x":"+8","y":"8"}`,
	} {
		expectRefused(t, text, mvtgate.ErrNotAFault)
	}
}

// expectRefused expects the error of a text that is read, and of one that is to be confirmed.
func expectRefused(t *testing.T, text string, wanted error) {
	t.Helper()
	if fault, err := mvtgate.ParseFault([]byte(text)); !errors.Is(err, wanted) {
		t.Errorf("%s is read: %v, %v", text, fault, err)
	}
	if isTrue, err := mvtgate.ConfirmText(nil, []byte(text), mvtgate.ProfilePolygon); !errors.Is(err, wanted) {
		t.Errorf("%s is confirmed: %v, %v", text, isTrue, err)
	}
}

func TestWhatIsNoJSONIsTold(t *testing.T) {
	for _, text := range []string{
		"", "{", `{"code":201,"layer":00}`, `{"code":201,"layer":0}x`, "\ufeff{}", "\"\xff\"", `"\ud800"`,
		strings.Repeat("[", 200) + strings.Repeat("]", 200),
		`{"code":201,"layer":1e999,"layer":0}`,
	} {
		expectRefused(t, text, mvtgate.ErrNotJSON)
	}
}

func TestANumberThatIsOutOfRangeIsTold(t *testing.T) {
	meeting := `{"code":504,"feature":0,"first":{"edge":0,"ring":0},"layer":0,"polygon":0,"second":{"edge":2,"ring":0},"w":"1","x":"X","y":"8"}`
	expectRefused(t, `{"at":0,"code":101,"field":4294967296,"scope":"tile"}`, mvtgate.ErrFaultRange)
	for _, x := range []string{"170141183460469231731687303715884105728", "-170141183460469231731687303715884105729", "1" + strings.Repeat("0", 80)} {
		expectRefused(t, strings.Replace(meeting, "X", x, 1), mvtgate.ErrFaultRange)
	}
}

// (RFC 8259 leaves open which of equal keys counts; it is the last one, as for the program.)
func TestTheLastOfEqualKeysCounts(t *testing.T) {
	deep := strings.Repeat("[", 100) + strings.Repeat("]", 100)
	for text, wanted := range map[string]mvtgate.Fault{
		`{"code":200,"layer":9,"code":201,"layer":3}`:                       {Code: 201, Layer: 3},
		`{"\u0063ode":201,"l\u0061yer":3}`:                                  {Code: 201, Layer: 3},
		`{"layer":` + deep + `,"code":201,"layer":3}`:                       {Code: 201, Layer: 3},
		`{"scope":"layer","at":1,"code":105,"field":2,"scope":"t\u0069le"}`: {Code: 105, Scope: mvtgate.ScopeTile, At: 1, Field: 2},
	} {
		if fault := parse(t, text); *fault != wanted {
			t.Errorf("%s: %v", text, fault.Text())
		}
	}
	text := `{"code":504,"feature":0,"first":7,"first":{"edge":0,"ring":2,"edge":1},"layer":0,"polygon":0,"second":{"edge":2,"ring":0},"w":"1","x":"8","y":"8"}`
	if fault := parse(t, text); fault.FirstEdge != (mvtgate.RingEdge{Ring: 2, Edge: 1}) {
		t.Error(fault.Text())
	}
}

func TestSpacesAndTheOrderOfKeysDoNotMatter(t *testing.T) {
	fault := parse(t, "{\n \"layer\" : 3, \"code\": 201 }\n")
	if *fault != (mvtgate.Fault{Code: 201, Layer: 3}) || fault.Text() != `{"code":201,"layer":3}` {
		t.Error(fault.Text())
	}
	var kept struct{ Fault mvtgate.Fault }
	if err := json.Unmarshal([]byte(`{"Fault": {"second": 1, "first": 0, "code": 202}}`), &kept); err != nil || kept.Fault != (mvtgate.Fault{Code: 202, SecondLayer: 1}) {
		t.Error(kept, err)
	}
}

func TestAFaultThatIsThereOrNotComesBackFromJSON(t *testing.T) {
	type answer struct {
		Kept  mvtgate.Fault
		Other *mvtgate.Fault
	}
	fault := mvtgate.Fault{Code: 105, Scope: mvtgate.ScopeLayer, At: 7, Field: 3, Layer: 2}
	for _, it := range []answer{{Kept: fault}, {Kept: fault, Other: &mvtgate.Fault{Code: 201}}} {
		text, err := json.Marshal(it)
		var back answer
		if err != nil || json.Unmarshal(text, &back) != nil || back.Kept != it.Kept || (back.Other == nil) != (it.Other == nil) || it.Other != nil && *back.Other != *it.Other {
			t.Errorf("%s: %v, %v", text, back, err)
		}
	}
	kept := answer{Kept: fault}
	if err := json.Unmarshal([]byte(`{"Kept": null, "Other": null}`), &kept); err != nil || kept.Kept != fault || kept.Other != nil {
		t.Error(kept, err)
	}
}

func TestTheGreatestNumbersAreRead(t *testing.T) {
	text := strings.NewReplacer("N", "18446744073709551615", "M", "170141183460469231731687303715884105727", "L", "-170141183460469231731687303715884105728").Replace(
		`{"code":504,"feature":N,"first":{"edge":N,"ring":N},"layer":N,"polygon":N,"second":{"edge":N,"ring":N},"w":"M","x":"L","y":"M"}`)
	fault := parse(t, text)
	if len(text) > 384 || fault.Text() != text || fault.SecondEdge.Edge != math.MaxUint64 {
		t.Error(fault.Text())
	}
	x, y := fault.Point()
	if x.RatString() != "-170141183460469231731687303715884105728/170141183460469231731687303715884105727" || y.RatString() != "1" {
		t.Error(x, y)
	}
}

func TestAValueThatIsNoFaultHasAText(t *testing.T) {
	for _, it := range []mvtgate.Fault{{}, {Code: 200}, {Code: 101}, {Code: 101, Scope: "other"}} {
		if it.Text() != "{}" || it.Error() == "" {
			t.Error(it)
		}
		if _, err := mvtgate.Confirm(nil, &it, mvtgate.ProfilePolygon); !errors.Is(err, mvtgate.ErrNotAFault) {
			t.Error(err)
		}
	}
}

func TestAdviceOfNoKindHasWords(t *testing.T) {
	for _, it := range []mvtgate.Advice{{}, {Kind: "other", Layer: 1}} {
		if it.String() != it.Kind+": No advice has this kind." || it.Title() == "" || it.Place() != "" || strings.Count(it.Explain(), "\n") != 4 {
			t.Error(it.Explain())
		}
	}
}

func TestATextThatIsNoFaultIsToldFromAFaultThatIsNotTrue(t *testing.T) {
	tile := []byte("\x1a\x05")
	for text, wanted := range map[string]struct {
		isTrue bool
		err    error
	}{
		`{"at":0,"code":105,"field":3,"scope":"tile"}`: {true, nil},
		`{"at":1,"code":105,"field":3,"scope":"tile"}`: {false, nil},
		``:             {false, mvtgate.ErrNotJSON},
		`{"code":999}`: {false, mvtgate.ErrNotAFault},
		`{}`:           {false, mvtgate.ErrNotAFault},
		`{"at":0,"code":101,"field":4294967296,"scope":"tile"}`: {false, mvtgate.ErrFaultRange},
	} {
		if isTrue, err := mvtgate.ConfirmText(tile, []byte(text), mvtgate.ProfilePolygon); isTrue != wanted.isTrue || !errors.Is(err, wanted.err) {
			t.Errorf("%s: %v, %v", text, isTrue, err)
		}
	}
}

func TestASentenceHasThePlaces(t *testing.T) {
	for text, wanted := range map[string]string{
		`{"at":15,"code":101,"feature":0,"field":4,"layer":2,"scope":"feature"}`:                                                                 "101: In feature 0 of layer 2, the varint of field 4 (geometry) that is due at byte 15 ends too early.",
		`{"at":1,"code":101,"field":0,"scope":"tile"}`:                                                                                           "101: In the tile, the varint of a field key that is due at byte 1 ends too early.",
		`{"at":7,"code":101,"field":99,"layer":1,"scope":"value","value":3}`:                                                                     "101: In value 3 of layer 1, the varint of field 99 that is due at byte 7 ends too early.",
		`{"code":504,"feature":3,"first":{"edge":1,"ring":5},"layer":0,"polygon":4,"second":{"edge":2,"ring":6},"w":"180","x":"800","y":"-360"}`: "504: In feature 3 of layer 0, edge 1 of ring 5 meets edge 2 of ring 6, of polygon 4, at (40/9, -2).",
		`{"code":504,"feature":3,"first":{"edge":1,"ring":5},"layer":0,"polygon":4,"second":{"edge":2,"ring":6},"w":"0","x":"8","y":"0"}`:        "504: In feature 3 of layer 0, edge 1 of ring 5 meets edge 2 of ring 6, of polygon 4, at (8/0, 0/0).",
	} {
		if said := parse(t, text).Error(); said != wanted {
			t.Errorf("%s\n%s", said, wanted)
		}
	}
}

func TestAProfileIsAFlag(t *testing.T) {
	flags := flag.NewFlagSet("test", flag.ContinueOnError)
	flags.SetOutput(new(strings.Builder))
	profile := mvtgate.ProfilePolygon
	flags.TextVar(&profile, "profile", profile, "what polygons are held against")
	if err := flags.Parse([]string{"-profile", "feature"}); err != nil || profile != mvtgate.ProfileFeature {
		t.Error(profile, err)
	}
	if err := flags.Parse([]string{"-profile", "polygons"}); err == nil {
		t.Error("polygons is no profile")
	}
	if _, err := mvtgate.Profile(2).MarshalText(); err == nil {
		t.Error("2 is no profile")
	}
	if err := mvtgate.Check(nil, mvtgate.Profile(2)); err == nil || !strings.Contains(err.Error(), "profile") {
		t.Error(err)
	}
}
