package gate

import (
	"bytes"
	"context"
	"encoding/binary"
	"errors"
	"io"
	"os"
	"sync"
	"testing"
	"testing/iotest"
	"time"

	"mvtgate"

	"mvtgate-proxy/internal/tiles"
)

// growing takes note of how much of the budget is taken while bytes come.
type growing struct {
	left   int
	budget *Budget
	most   int64
}

func (it *growing) Read(room []byte) (int, error) {
	if it.left == 0 {
		return 0, io.EOF
	}
	if taken := it.budget.Taken(); taken > it.most {
		it.most = taken
	}
	count := len(room)
	if count > 1000 {
		count = 1000
	}
	if count > it.left {
		count = it.left
	}
	it.left -= count
	return count, nil
}

func TestRoomIsMadeAsBytesCome(t *testing.T) {
	for _, announced := range []int64{-1, 0, 10, 1 << 40, 300000} {
		for _, length := range []int{0, 1, 65535, 65536, 65537, 300000} {
			budget := NewBudget(1 << 30)
			source := &growing{left: length, budget: budget}
			read, err := budget.ReadAll(source, announced, 1<<20, nil)
			if err != nil || len(read.Read) != length || source.most > int64(2*length+2*firstRoom) {
				t.Error(announced, length, len(read.Read), source.most, err)
			}
			read.Release()
			if budget.Taken() != 0 {
				t.Error(budget.Taken())
			}
		}
	}
}

func TestNoMoreIsReadThanTheLimitAndOneByte(t *testing.T) {
	budget := NewBudget(1 << 30)
	for _, limit := range []int64{0, 1, 1000, 65536, 200000} {
		source := &growing{left: 1 << 20, budget: budget}
		read, err := budget.ReadAll(source, 1<<20, limit, nil)
		if !errors.Is(err, TooLong) || int64(len(read.Read)) != limit+1 {
			t.Error(limit, len(read.Read), err)
		}
		read.Release()
	}
	small := NewBudget(100000)
	read, err := small.ReadAll(&growing{left: 1 << 20, budget: small}, -1, 1<<20, nil)
	if !errors.Is(err, OutOfMemory) || len(read.Read) != firstRoom {
		t.Error(len(read.Read), err)
	}
	read.Release()
	broken := errors.New("broken")
	read, err = budget.ReadAll(iotest.ErrReader(broken), -1, 100, nil)
	read.Release()
	if !errors.Is(err, broken) || budget.Taken() != 0 || small.Taken() != 0 {
		t.Error(err, budget.Taken(), small.Taken())
	}
}

func sample(t *testing.T, name string) []byte {
	tile, err := os.ReadFile("../../../tiles/" + name + ".mvt")
	if err != nil {
		t.Fatal(err)
	}
	return tile
}

func newGate(atOnce int, remember int64, observe func()) (*Gate, *Budget) {
	budget := NewBudget(1 << 30)
	return New(Settings{MaxTile: 1 << 20, AtOnce: atOnce, Wait: time.Minute, Remember: remember, Observe: func(time.Duration) { observe() }}, budget), budget
}

func TestAVerdictIsRememberedByBytesAndEncoding(t *testing.T) {
	judged := 0
	gate, budget := newGate(1, 1<<20, func() { judged++ })
	faulty := sample(t, "crossing_edges")
	packed, err := tiles.Packed(faulty, "gzip")
	if err != nil {
		t.Fatal(err)
	}
	for round := 0; round < 3; round++ {
		verdict, err := gate.Judge(context.Background(), faulty, "")
		if err != nil || verdict.Fault == nil || verdict.Fault.Code != 504 || verdict.Layer != "a" {
			t.Fatal(verdict, err)
		}
		if verdict, err := gate.Judge(context.Background(), packed, "gzip"); err != nil || verdict.Fault.Code != 504 {
			t.Fatal(verdict, err)
		}
		// (the same bytes are another tile when they aren't packed)
		if verdict, err := gate.Judge(context.Background(), packed, ""); err != nil || verdict.Fault.Code != 104 {
			t.Fatal(verdict, err)
		}
		if verdict, err := gate.Judge(context.Background(), sample(t, "polygon"), ""); err != nil || verdict.Fault != nil {
			t.Fatal(verdict, err)
		}
	}
	if verdicts, size := gate.Remembered(); judged != 4 || verdicts != 4 || size == 0 || budget.Taken() != 0 || gate.Judging() != 0 {
		t.Error(judged, verdicts, size, budget.Taken())
	}
}

// longer is the tile with a field of an unknown number behind it, so that it has so many bytes.
func longer(t *testing.T, tile []byte, length int) []byte {
	head := binary.AppendUvarint([]byte{0xa2, 0x01}, uint64(length-len(tile)-5))
	long := append(append(append([]byte{}, tile...), head...), make([]byte, length-len(tile)-5)...)
	if len(long) != length {
		t.Fatal(len(long))
	}
	return long
}

func TestALongTileIsNotMendedByFeature(t *testing.T) {
	faulty := sample(t, "crossing_edges")
	for profile, isMended := range map[mvtgate.Profile]bool{mvtgate.ProfilePolygon: true, mvtgate.ProfileFeature: false} {
		gate, budget := newGate(1, 0, func() {})
		gate.Profile, gate.MaxTile = profile, 2<<20
		for _, encoding := range []string{"", "gzip"} {
			longest, _ := tiles.Packed(longer(t, faulty, LongestMendedByFeature), encoding)
			tooLong, _ := tiles.Packed(longer(t, faulty, LongestMendedByFeature+1), encoding)
			if _, err := gate.Mend(context.Background(), longest, encoding); err != nil {
				t.Error(profile, encoding, err)
			}
			if mended, err := gate.Mend(context.Background(), tooLong, encoding); (err == nil) != isMended || (mended == nil) == isMended {
				t.Error(profile, encoding, err)
			}
			if verdict, err := gate.Judge(context.Background(), tooLong, encoding); err != nil || verdict.Fault == nil || verdict.Fault.Code != 504 {
				t.Error(profile, encoding, err)
			}
		}
		if budget.Taken() != 0 || gate.Judging() != 0 {
			t.Error(budget.Taken())
		}
	}
}

func TestMendingTakesMoreOfTheBudgetThanJudging(t *testing.T) {
	const length = 100_000
	faulty := longer(t, sample(t, "crossing_edges"), length)
	for budget, isMended := range map[int64]bool{JudgingMemory(length): false, MendingMemory(length) - 1: false, MendingMemory(length): true} {
		gate, _ := newGate(1, 0, func() {})
		gate.budget = NewBudget(budget)
		if verdict, err := gate.Judge(context.Background(), faulty, ""); err != nil || verdict.Fault == nil {
			t.Error(budget, err)
		}
		if _, err := gate.Mend(context.Background(), faulty, ""); (err == nil) != isMended || !isMended && !errors.Is(err, OutOfMemory) {
			t.Error(budget, err)
		}
		if gate.budget.Taken() != 0 {
			t.Error(gate.budget.Taken())
		}
	}
	if most := MendingMemory(64 << 20); most != 3<<30 {
		t.Error(most)
	}
}

func TestWhoWaitsForATurnCanGoAway(t *testing.T) {
	gate, _ := newGate(1, 0, func() {})
	gate.turns <- struct{}{}
	limit, cancel := context.WithTimeout(context.Background(), time.Millisecond)
	defer cancel()
	if _, err := gate.Judge(limit, nil, ""); !errors.Is(err, context.DeadlineExceeded) {
		t.Error(err)
	}
	gate.Wait = time.Millisecond
	if _, err := gate.Judge(context.Background(), nil, ""); !errors.Is(err, Busy) {
		t.Error(err)
	}
	if _, err := gate.Mend(context.Background(), nil, ""); !errors.Is(err, Busy) {
		t.Error(err)
	}
	<-gate.turns
	if verdict, err := gate.Judge(context.Background(), nil, ""); err != nil || verdict.Fault != nil {
		t.Error(verdict, err)
	}
}

func TestGoroutinesShareAGate(t *testing.T) {
	gate, budget := newGate(2, 10000, func() {})
	valid, faulty := sample(t, "polygon"), sample(t, "crossing_edges")
	var group sync.WaitGroup
	for routine := 0; routine < 8; routine++ {
		group.Add(1)
		go func() {
			defer group.Done()
			for round := 0; round < 50; round++ {
				for encoding, tile := range map[string][]byte{"": valid, "gzip": faulty} {
					packed, _ := tiles.Packed(tile, encoding)
					verdict, err := gate.Judge(context.Background(), packed, encoding)
					if err != nil || (verdict.Fault == nil) != (encoding == "") {
						t.Error(encoding, err)
					}
				}
				if mended, err := gate.Mend(context.Background(), faulty, ""); err != nil || bytes.Equal(mended, faulty) {
					t.Error(err)
				}
			}
		}()
	}
	group.Wait()
	if budget.Taken() != 0 || gate.Judging() != 0 {
		t.Error(budget.Taken())
	}
}
