package mvtgate_test

import (
	"bytes"
	"math/big"
	"testing"

	"mvtgate"
)

// A layer with one feature of type polygon: a square of 10 by 10 units that is wound as a hole is, the same turned from its first
// position, and MoveTo with a count of 0, which draws nothing.
var (
	backwards = layer(2, "a", feature(3, 9, 0, 0, 26, 0, 20, 20, 0, 0, 19, 15))
	turned    = layer(2, "a", feature(3, 9, 0, 0, 26, 20, 0, 0, 20, 19, 0, 15))
	noRing    = layer(2, "a", feature(3, 1, 50, 34))
	noFeature = layer(2, "a")
)

type mending func(tile []byte, profile mvtgate.Profile) (*mvtgate.Mended, error)

var mendings = []mending{mvtgate.Mend, mvtgate.MendOrDrop}

func TestAValidTileComesBackAsItIs(t *testing.T) {
	for _, profile := range profiles {
		for _, tile := range [][]byte{turned, noFeature} {
			for _, mend := range mendings {
				if mended, err := mend(tile, profile); err != nil || len(mended.Changes) != 0 || &mended.Tile[0] != &tile[0] || len(mended.Tile) != len(tile) {
					t.Error(mended, err)
				}
			}
		}
	}
}

func TestASquareThatIsWoundBackwardsIsTurned(t *testing.T) {
	for _, profile := range profiles {
		for _, mend := range mendings {
			mended, err := mend(backwards, profile)
			if err != nil || !bytes.Equal(mended.Tile, turned) || len(mended.Changes) != 1 {
				t.Fatal(mended, err)
			}
			it := mended.Changes[0]
			if it.Before.DoubledArea.Cmp(big.NewInt(-200)) != 0 || it.After.DoubledArea.Cmp(big.NewInt(200)) != 0 {
				t.Error(it.Before, it.After)
			}
			it.Before.DoubledArea, it.After.DoubledArea = nil, nil
			if it != (mvtgate.Change{Before: mvtgate.Measures{Vertices: 4}, After: mvtgate.Measures{Polygons: 1, Vertices: 4}}) {
				t.Error(it)
			}
		}
	}
}

func TestAFeatureThatCannotBeMendedIsRefusedOrLeftOut(t *testing.T) {
	for _, profile := range profiles {
		_, err := mvtgate.Mend(noRing, profile)
		if fault := faultOf(t, err); fault == nil || *fault != (mvtgate.Fault{Code: 402}) {
			t.Error(err)
		}
		mended, err := mvtgate.MendOrDrop(noRing, profile)
		if err != nil || !bytes.Equal(mended.Tile, noFeature) || len(mended.Changes) != 1 || mended.Changes[0] != (mvtgate.Change{Dropped: true}) {
			t.Error(mended, err)
		}
	}
}

func isOfPolygons(fault *mvtgate.Fault) bool { return 501 <= fault.Code && fault.Code <= 507 }

func TestEachSampleComesOutValidOrIsRefused(t *testing.T) {
	eachSample(t, func(t *testing.T, it sample, profile mvtgate.Profile) {
		for drops, mend := range mendings {
			mended, err := mend(it.tile, profile)
			if fault := faultOf(t, err); fault != nil {
				if !isTrue(t, it.tile, fault, profile) || drops == 1 && isOfPolygons(fault) {
					t.Error(fault)
				}
				continue
			}
			if err := mvtgate.Check(mended.Tile, profile); err != nil || (len(mended.Changes) == 0) != it.isValid() {
				t.Error(err, mended.Changes)
			}
			for _, change := range mended.Changes {
				if change.Dropped && drops == 0 {
					t.Error(change)
				}
			}
		}
	})
}

func TestAReportThatIsLongerThanItsFirstRoomIsWhole(t *testing.T) {
	var tile []byte
	for at := 0; at < 300; at++ {
		name := string([]byte{'a' + byte(at/26), 'a' + byte(at%26)})
		tile = append(tile, layer(2, name, feature(3, 9, 0, 0, 26, 0, 20, 20, 0, 0, 19, 15))...)
	}
	mended, err := mvtgate.Mend(tile, mvtgate.ProfilePolygon)
	if err != nil || len(mended.Changes) != 300 || mvtgate.Check(mended.Tile, mvtgate.ProfilePolygon) != nil {
		t.Fatal(err)
	}
	for at, it := range mended.Changes {
		if it.Layer != uint64(at) || it.Feature != 0 {
			t.Fatal(at, it)
		}
	}
}
