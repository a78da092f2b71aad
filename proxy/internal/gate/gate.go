// Package gate judges tiles, so many at one time, within a bound on memory.
package gate

import (
	"context"
	"crypto/sha512"
	"errors"
	"io"
	"sync"
	"time"

	"mvtgate"

	"mvtgate-proxy/internal/lru"
	"mvtgate-proxy/internal/tiles"
)

// The worst tiles take so many times their length while they are judged, by either profile, and so many more while they are mended:
// 200 bytes for each vertex, which has two bytes or more. Of a tile no more than some five million vertices are mended.
const (
	lengthsOfJudgement = 32
	lengthsOfMending   = 100
	mostOfMending      = 1 << 30
)

// LongestMendedByFeature is how many bytes a tile may have that is mended by the profile feature. Nothing interrupts that, and its
// time may grow as the square of the length.
const LongestMendedByFeature = 1 << 20

var errTooLongToMend = errors.New("the tile is too long to be mended by the profile feature")

// In bytes: about what a verdict takes beside its texts.
const verdictBytes = 300

// In bytes: a longer room for an unpacked tile isn't kept for the next one.
const mostRoom = 1 << 20

// Settings say how tiles are judged.
type Settings struct {
	Profile mvtgate.Profile
	// Exact asks for a tile's first fault also where edges meet by the profile feature, in whatever time that takes.
	Exact bool
	// NotEmpty refuses a tile of no bytes.
	NotEmpty bool
	// Drop lets mending leave out features that can't be mended.
	Drop bool
	// MaxTile is how many bytes an unpacked tile may have.
	MaxTile int64
	// AtOnce is how many tiles are unpacked and judged at one time, Wait how long one waits for its turn.
	AtOnce int
	Wait   time.Duration
	// Remember is for how many bytes verdicts are kept.
	Remember int64
	// Observe is told how long each judgement took.
	Observe func(time.Duration)
}

// Verdict is what is known of a tile: it is valid where there is no fault.
type Verdict struct {
	Fault *mvtgate.Fault
	// Layer is the name of the fault's layer, or "".
	Layer string
	// Explanation is that of the fault, in lines.
	Explanation string
}

// A tile by its packed bytes and how they are packed.
type digest [sha512.Size256]byte

// Gate is for any number of goroutines.
type Gate struct {
	Settings
	budget *Budget
	turns  chan struct{}
	kept   *lru.Cache[digest, *Verdict]
	rooms  sync.Pool
}

// New makes a gate that takes its memory from the budget.
func New(settings Settings, budget *Budget) *Gate {
	return &Gate{
		Settings: settings,
		budget:   budget,
		turns:    make(chan struct{}, settings.AtOnce),
		kept:     lru.New[digest, *Verdict](settings.Remember),
		rooms:    sync.Pool{New: func() any { return new([]byte) }},
	}
}

// Remembered is how many verdicts are kept, and how many bytes they take.
func (it *Gate) Remembered() (verdicts int, bytes int64) { return it.kept.Size() }

// Judging is how many tiles are being judged.
func (it *Gate) Judging() int { return len(it.turns) }

// JudgingMemory is how many bytes a tile of this length may take beside its own while it is judged.
func JudgingMemory(length int64) int64 { return lengthsOfJudgement * length }

// MendingMemory is the same while it is mended.
func MendingMemory(length int64) int64 {
	if length > mostOfMending/lengthsOfMending {
		return JudgingMemory(length) + mostOfMending
	}
	return JudgingMemory(length) + lengthsOfMending*length
}

// Judge is the verdict on a tile by its packed bytes. The error is an *Unjudged, or that of the context. A judgement can't be
// interrupted.
func (it *Gate) Judge(ctx context.Context, packed []byte, encoding string) (*Verdict, error) {
	if it.NotEmpty && len(packed) == 0 {
		return nil, Empty
	}
	var key digest
	if it.kept != nil {
		key = digestOf(packed, encoding)
		if verdict, isKnown := it.kept.Get(key); isKnown {
			return verdict, nil
		}
	}
	var verdict *Verdict
	err := it.withTile(ctx, packed, encoding, func(tile []byte) error {
		return it.within(JudgingMemory(int64(len(tile))), func() (err error) {
			verdict, err = it.judged(tile)
			return err
		})
	})
	if err != nil {
		return nil, err
	}
	it.kept.Put(key, verdict, int64(len(verdict.Layer)+len(verdict.Explanation)+verdictBytes))
	return verdict, nil
}

// Mend is a valid tile in place of a faulty one, packed as that was. The error is its *mvtgate.Fault where it can't be mended, an
// *Unjudged where no memory or no turn is left, and another one where it isn't tried: the tile is too long for the profile feature.
func (it *Gate) Mend(ctx context.Context, packed []byte, encoding string) (mended []byte, err error) {
	err = it.withTile(ctx, packed, encoding, func(tile []byte) error {
		if it.Profile == mvtgate.ProfileFeature && len(tile) > LongestMendedByFeature {
			return errTooLongToMend
		}
		return it.within(MendingMemory(int64(len(tile))), func() (err error) {
			mended, err = it.mended(tile, encoding)
			return err
		})
	})
	return mended, err
}

func (it *Gate) mended(tile []byte, encoding string) ([]byte, error) {
	mend := mvtgate.Mend
	if it.Drop {
		mend = mvtgate.MendOrDrop
	}
	made, err := mend(tile, it.Profile)
	if err != nil {
		return nil, reasonOf(err)
	}
	return tiles.Packed(made.Tile, encoding)
}

func digestOf(packed []byte, encoding string) (key digest) {
	hash := sha512.New512_256()
	hash.Write([]byte{byte(len(encoding))})
	hash.Write([]byte(encoding))
	hash.Write(packed)
	hash.Sum(key[:0])
	return key
}

// withTile calls a function with the unpacked tile, when it is its turn and memory for its bytes is left.
func (it *Gate) withTile(ctx context.Context, packed []byte, encoding string, use func(tile []byte) error) error {
	if err := it.enter(ctx); err != nil {
		return err
	}
	defer func() { <-it.turns }()
	if encoding == "" {
		if int64(len(packed)) > it.MaxTile {
			return TooLong
		}
		return use(packed)
	}
	room := it.rooms.Get().(*[]byte)
	defer it.rooms.Put(room)
	return reasonOf(tiles.Unpacked(packed, encoding, func(source io.Reader) error {
		unpacked, err := it.budget.ReadAll(source, -1, it.MaxTile, *room)
		defer unpacked.Release()
		if cap(unpacked.Read) <= mostRoom {
			*room = unpacked.Read[:0]
		}
		if err != nil {
			return err
		}
		if it.NotEmpty && len(unpacked.Read) == 0 {
			return Empty
		}
		return use(unpacked.Read)
	}))
}

// within calls a function that takes up to so many bytes, if they are left.
func (it *Gate) within(bytes int64, use func() error) error {
	if !it.budget.Take(bytes) {
		return OutOfMemory
	}
	defer it.budget.Give(bytes)
	return use()
}

// enter waits for its turn.
func (it *Gate) enter(ctx context.Context) error {
	select {
	case it.turns <- struct{}{}:
		return nil
	default:
	}
	timer := time.NewTimer(it.Wait)
	defer timer.Stop()
	select {
	case it.turns <- struct{}{}:
		return nil
	case <-timer.C:
		return Busy
	case <-ctx.Done():
		return ctx.Err()
	}
}

func (it *Gate) judged(tile []byte) (*Verdict, error) {
	check := mvtgate.CheckQuickly
	if it.Exact {
		check = mvtgate.Check
	}
	begun := time.Now()
	err := check(tile, it.Profile)
	it.Observe(time.Since(begun))
	var fault *mvtgate.Fault
	switch {
	case err == nil:
		return &Verdict{}, nil
	case errors.As(err, &fault):
		verdict := &Verdict{Fault: fault, Explanation: mvtgate.Explain(fault, tile)}
		if layer, isThere := fault.InLayer(); isThere {
			verdict.Layer = tiles.LayerName(tile, layer)
		}
		return verdict, nil
	default:
		return nil, reasonOf(err)
	}
}

// reasonOf is an error as an *Unjudged where it is one of packing or of memory, else as it is.
func reasonOf(err error) error {
	switch {
	case errors.Is(err, mvtgate.ErrOutOfMemory):
		return OutOfMemory
	case errors.Is(err, tiles.ErrPacking):
		return Packing
	default:
		return err
	}
}
