package mvtgate_test

import (
	"errors"
	"os"
	"path/filepath"
	"strings"
	"testing"

	"mvtgate"
)

const validLine = `{"ok":true}`

var profiles = []mvtgate.Profile{mvtgate.ProfilePolygon, mvtgate.ProfileFeature}

// sample is a tile, and the lines of which `check` may write any one.
type sample struct {
	name     string
	tile     []byte
	expected []string
}

func (it *sample) isValid() bool { return len(it.expected) == 1 && it.expected[0] == validLine }

func (it *sample) expects(line string) bool {
	for _, wanted := range it.expected {
		if line == wanted {
			return true
		}
	}
	return false
}

func read(t testing.TB, path string) []byte {
	t.Helper()
	bytes, err := os.ReadFile(path)
	if err != nil {
		t.Fatal(err)
	}
	return bytes
}

// samples are the repository's sample tiles, with the lines that are expected of the program by a profile.
func samples(t testing.TB, profile mvtgate.Profile) []sample {
	t.Helper()
	paths, err := filepath.Glob("../../tiles/expected/*.check")
	if err != nil || len(paths) < 100 {
		t.Fatal("the sample tiles aren't there", err)
	}
	all := make([]sample, len(paths))
	for at, path := range paths {
		name := strings.TrimSuffix(filepath.Base(path), ".check")
		if _, err := os.Stat(path + "_feature"); err == nil && profile == mvtgate.ProfileFeature {
			path += "_feature"
		}
		lines := strings.Split(strings.TrimSuffix(string(read(t, path)), "\n"), "\n")
		all[at] = sample{name, read(t, "../../tiles/"+name+".mvt"), lines}
	}
	return all
}

// eachSample runs a test on each sample by both profiles.
func eachSample(t *testing.T, test func(t *testing.T, it sample, profile mvtgate.Profile)) {
	for _, profile := range profiles {
		for _, it := range samples(t, profile) {
			it, profile := it, profile
			t.Run(profile.String()+"/"+it.name, func(t *testing.T) { test(t, it, profile) })
		}
	}
}

// faultOf is the fault that an error is, or nil where there is no error.
func faultOf(t testing.TB, err error) *mvtgate.Fault {
	t.Helper()
	var fault *mvtgate.Fault
	if err != nil && !errors.As(err, &fault) {
		t.Fatal(err)
	}
	return fault
}

func lineOf(fault *mvtgate.Fault) string {
	if fault == nil {
		return validLine
	}
	return fault.Text()
}

func parse(t testing.TB, text string) *mvtgate.Fault {
	t.Helper()
	fault, err := mvtgate.ParseFault([]byte(text))
	if err != nil {
		t.Fatal(text, err)
	}
	return fault
}

// isTrue says whether the fault is confirmed.
func isTrue(t testing.TB, tile []byte, fault *mvtgate.Fault, profile mvtgate.Profile) bool {
	t.Helper()
	confirmed, err := mvtgate.Confirm(tile, fault, profile)
	if err != nil {
		t.Fatal(err)
	}
	return confirmed
}
