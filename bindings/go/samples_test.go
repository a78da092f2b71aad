package mvtgate_test

import (
	"bytes"
	"encoding/json"
	"errors"
	"strings"
	"sync"
	"testing"

	"mvtgate"
)

func TestEachSampleHasAnExpectedAnswer(t *testing.T) {
	eachSample(t, func(t *testing.T, it sample, profile mvtgate.Profile) {
		fault := faultOf(t, mvtgate.Check(it.tile, profile))
		if !it.expects(lineOf(fault)) {
			t.Fatal(lineOf(fault))
		}
		quick := faultOf(t, mvtgate.CheckQuickly(it.tile, profile))
		if (quick == nil) != (fault == nil) || quick != nil && !isTrue(t, it.tile, quick, profile) {
			t.Fatal("quickly:", lineOf(quick))
		}
		if profile == mvtgate.ProfilePolygon && !it.expects(lineOf(quick)) {
			t.Fatal("quickly:", lineOf(quick))
		}
	})
}

func TestAnEmptyTileIsValidUnlessItHasToHaveBytes(t *testing.T) {
	for _, profile := range profiles {
		for _, empty := range [][]byte{nil, {}} {
			if err := mvtgate.Check(empty, profile); err != nil {
				t.Error(err)
			}
			if err := mvtgate.CheckNotEmpty(empty, profile); !errors.Is(err, mvtgate.ErrEmpty) {
				t.Error(err)
			}
		}
		for _, it := range samples(t, profile) {
			if len(it.tile) > 0 && lineOf(faultOf(t, mvtgate.CheckNotEmpty(it.tile, profile))) != lineOf(faultOf(t, mvtgate.Check(it.tile, profile))) {
				t.Error(it.name)
			}
		}
	}
}

func TestEachExpectedFaultIsConfirmedOnItsTileAlone(t *testing.T) {
	eachSample(t, func(t *testing.T, it sample, profile mvtgate.Profile) {
		for _, text := range it.expected {
			if text == validLine {
				continue
			}
			fault := parse(t, text)
			confirmed, err := mvtgate.ConfirmText(it.tile, []byte(" "+text+"\n"), profile)
			if !isTrue(t, it.tile, fault, profile) || !confirmed || err != nil {
				t.Error(text, err)
			}
			if isTrue(t, nil, fault, profile) {
				t.Error("of no bytes:", text)
			}
		}
	})
}

func TestEachExpectedFaultHasItsTextAndItsWords(t *testing.T) {
	eachSample(t, func(t *testing.T, it sample, profile mvtgate.Profile) {
		for _, text := range it.expected {
			if text == validLine {
				continue
			}
			fault := parse(t, text)
			encoded, err := json.Marshal(*fault)
			if fault.Text() != text || string(encoded) != text || err != nil {
				t.Errorf("%s: %s, %s", text, fault.Text(), encoded)
			}
			for _, words := range []string{fault.Error(), fault.Title(), fault.Place(), fault.Meaning(), fault.Cause(), fault.Remedy(), mvtgate.Explain(fault, nil)} {
				if words == "" || strings.ContainsAny(words, "{}") {
					t.Errorf("%s: %q", text, words)
				}
			}
		}
	})
}

// broken runs a test on the copies of a tile that are cut at each byte, and on those with one bit of a byte turned.
func broken(tile []byte, test func(copy []byte)) {
	for at := range tile {
		test(tile[:at:at])
		turned := append([]byte(nil), tile...)
		turned[at] ^= 1 << (at % 8)
		test(turned)
	}
}

func TestEachFaultOfABrokenTileIsReadAndConfirmed(t *testing.T) {
	for _, it := range samples(t, mvtgate.ProfileFeature) {
		broken(it.tile, func(copy []byte) {
			fault := faultOf(t, mvtgate.Check(copy, mvtgate.ProfileFeature))
			if fault == nil {
				return
			}
			if *parse(t, fault.Text()) != *fault || !isTrue(t, copy, fault, mvtgate.ProfileFeature) {
				t.Errorf("%s: %s", it.name, fault.Text())
			}
		})
	}
}

func TestDumpAndAdviseAskOnlyThatTheBytesAreATile(t *testing.T) {
	for _, it := range samples(t, mvtgate.ProfilePolygon) {
		fault := faultOf(t, mvtgate.Check(it.tile, mvtgate.ProfilePolygon))
		text, err := mvtgate.Dump(it.tile)
		advice, adviceErr := mvtgate.Advise(it.tile)
		if fault != nil && fault.Scope != "" {
			if text != nil || advice != nil || *faultOf(t, err) != *fault || *faultOf(t, adviceErr) != *fault {
				t.Error(it.name, err, adviceErr)
			}
		} else if err != nil || adviceErr != nil || !bytes.HasPrefix(text, []byte(`{"layers":[`)) || !json.Valid(text) {
			t.Error(it.name, err, adviceErr)
		}
	}
}

func TestGoroutinesGetTheSameAnswers(t *testing.T) {
	all := samples(t, mvtgate.ProfileFeature)
	var group sync.WaitGroup
	for routine := 0; routine < 8; routine++ {
		group.Add(1)
		go func(routine int) {
			defer group.Done()
			for round := 0; round < 10; round++ {
				for at := range all {
					it := all[(at*7+routine*31+round)%len(all)]
					var fault *mvtgate.Fault
					if err := mvtgate.Check(it.tile, mvtgate.ProfileFeature); err != nil && !errors.As(err, &fault) {
						t.Error(err)
					}
					if !it.expects(lineOf(fault)) {
						t.Errorf("%s: %s", it.name, lineOf(fault))
					}
				}
			}
		}(routine)
	}
	group.Wait()
}

func TestTheLibraryHasTheVersionOfTheRepository(t *testing.T) {
	if wanted := strings.TrimSpace(string(read(t, "../../VERSION"))); mvtgate.Version() != wanted {
		t.Errorf("%s, wanted %s", mvtgate.Version(), wanted)
	}
}
