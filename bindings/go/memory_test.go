package mvtgate_test

import (
	"bytes"
	"encoding/binary"
	"errors"
	"os"
	"os/exec"
	"runtime"
	"strconv"
	"strings"
	"syscall"
	"testing"

	"mvtgate"
)

func allocated() uint64 {
	var of runtime.MemStats
	runtime.ReadMemStats(&of)
	return of.TotalAlloc
}

func TestTheTileIsNotCopied(t *testing.T) {
	tile := bytes.Repeat(layer(2, "a", feature(1, 9, 50, 34)), 1<<20)
	before := allocated()
	fault := faultOf(t, mvtgate.CheckQuickly(tile, mvtgate.ProfilePolygon))
	if fault == nil || *fault != (mvtgate.Fault{Code: 202, SecondLayer: 1}) || !isTrue(t, tile, fault, mvtgate.ProfilePolygon) {
		t.Fatal(fault)
	}
	if taken := allocated() - before; taken > 1<<20 {
		t.Errorf("%d bytes of Go's heap for a tile of %d", taken, len(tile))
	}
}

func TestACheckOfAValidTileTakesNoneOfGosHeap(t *testing.T) {
	if taken := testing.AllocsPerRun(1000, func() { _ = mvtgate.Check(turned, mvtgate.ProfilePolygon) }); taken >= 1 {
		t.Errorf("%v pieces of memory for each check", taken)
	}
}

func TestAListTakesFewPiecesOfGosHeapForEachFault(t *testing.T) {
	const count = 3000
	tile := bytes.Repeat(layer(1, ""), count)
	taken := testing.AllocsPerRun(10, func() {
		if listed, err := mvtgate.Faults(tile, mvtgate.ProfilePolygon); len(listed) != count {
			t.Fatal(len(listed), err)
		}
	})
	if taken > 5*count {
		t.Errorf("%v pieces of memory for %d faults", taken, count)
	}
}

// unknownField is a field of so many bytes and some more, which a tile and a feature may have.
func unknownField(length int) []byte {
	return field([]byte{0xa2, 0x01}, make([]byte, length))
}

// field is one with this key, and a length in front of its bytes.
func field(key, payload []byte) []byte {
	head := binary.AppendUvarint(append([]byte{}, key...), uint64(len(payload)))
	return append(head, payload...)
}

func TestADumpTakesNoRoomByTheLengthOfTheTile(t *testing.T) {
	tile := unknownField(32 << 20)
	before := allocated()
	text, err := mvtgate.Dump(tile)
	if taken := allocated() - before; err != nil || taken > 17<<20 {
		t.Errorf("%d bytes of Go's heap for a tile of %d: %v", taken, len(tile), err)
	}
	if string(text) != `{"layers":[]}` || cap(text) > 100 {
		t.Error(len(text), cap(text))
	}
}

func TestAMendedTileKeepsNoMoreThanItsBytes(t *testing.T) {
	// a feature of polygons that draws no ring, and so is left out
	long := field([]byte{0x12}, append([]byte{0x18, 3, 0x22, 3, 1, 50, 34}, unknownField(1<<20)...))
	tile := field([]byte{0x1a}, append([]byte{0x78, 2, 0x0a, 1, 'a'}, long...))
	mended, err := mvtgate.MendOrDrop(tile, mvtgate.ProfilePolygon)
	if err != nil || !bytes.Equal(mended.Tile, noFeature) {
		t.Fatal(err)
	}
	if cap(mended.Tile) > 100 {
		t.Error(cap(mended.Tile))
	}
}

// addressSpace is how many bytes the process has mapped.
func addressSpace(t *testing.T) uint64 {
	pages, err := strconv.ParseUint(strings.Fields(string(read(t, "/proc/self/statm")))[0], 10, 64)
	if err != nil {
		t.Fatal(err)
	}
	return pages * uint64(os.Getpagesize())
}

// TestMemoryIsRefused runs itself as another process, which has little address space left when it judges.
func TestMemoryIsRefused(t *testing.T) {
	const marker = "MVTGATE_TEST_WITHOUT_MEMORY"
	if os.Getenv(marker) == "" {
		child := exec.Command(os.Args[0], "-test.run=^TestMemoryIsRefused$")
		child.Env = append(os.Environ(), marker+"=1")
		if said, err := child.CombinedOutput(); err != nil {
			t.Errorf("%v\n%s", err, said)
		}
		return
	}
	if mvtgate.Version() == "" {
		t.Fatal("(so that the library is there before memory is scarce)")
	}
	// (4 million layers, for each of which the judge takes some bytes)
	tile := bytes.Repeat(layer(2, ""), 4<<20)
	limit := addressSpace(t) + 24<<20
	if err := syscall.Setrlimit(syscall.RLIMIT_AS, &syscall.Rlimit{Cur: limit, Max: limit}); err != nil {
		t.Fatal(err)
	}
	if err := mvtgate.Check(tile, mvtgate.ProfilePolygon); !errors.Is(err, mvtgate.ErrOutOfMemory) {
		t.Fatal(err)
	}
	if err := mvtgate.Check(turned, mvtgate.ProfilePolygon); err != nil {
		t.Fatal("afterwards:", err)
	}
}
