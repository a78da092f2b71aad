package gate

import (
	"io"
	"sync/atomic"
)

// Budget is how many bytes tiles may take at one time, in all requests together.
type Budget struct {
	limit int64
	taken atomic.Int64
}

// NewBudget is one of so many bytes.
func NewBudget(limit int64) *Budget { return &Budget{limit: limit} }

// Take takes bytes if there are as many left. It never waits.
func (it *Budget) Take(bytes int64) bool {
	if it.taken.Add(bytes) <= it.limit {
		return true
	}
	it.taken.Add(-bytes)
	return false
}

// Give gives back what was taken.
func (it *Budget) Give(bytes int64) { it.taken.Add(-bytes) }

// Taken is how many bytes are taken.
func (it *Budget) Taken() int64 { return it.taken.Load() }

// In bytes: as many are made room for before any have come, whatever length was announced.
const firstRoom = 64 << 10

// Bytes is what was read, and what it takes of the budget until it is given back.
type Bytes struct {
	Read   []byte
	budget *Budget
	held   int64
}

// Release gives back what the bytes take.
func (it *Bytes) Release() {
	it.budget.Give(it.held)
	it.held = 0
}

// ReadAll reads to the end, but at most so many bytes and one more. The error is TooLong or OutOfMemory where there are more, or
// the memory for them isn't left. The bytes that were read are there with each error; the caller releases them. Room is made as
// bytes come. A length that was announced, or -1, only spares the last step from making too much; room is what to begin with.
func (it *Budget) ReadAll(source io.Reader, announced, limit int64, room []byte) (*Bytes, error) {
	read := &Bytes{Read: room[:0], budget: it}
	if !it.Take(int64(cap(room))) {
		read.Read = nil
		return read, OutOfMemory
	}
	read.held = int64(cap(room))
	for {
		if len(read.Read) == cap(read.Read) {
			if int64(len(read.Read)) > limit {
				return read, TooLong
			}
			if !read.grow(announced, limit) {
				return read, OutOfMemory
			}
		}
		count, err := source.Read(read.Read[len(read.Read):cap(read.Read)])
		read.Read = read.Read[:len(read.Read)+count]
		if int64(len(read.Read)) > limit {
			return read, TooLong
		}
		if err == io.EOF {
			return read, nil
		}
		if err != nil {
			return read, err
		}
	}
}

// grow doubles the room, but makes no more than is announced or allowed.
func (it *Bytes) grow(announced, limit int64) bool {
	wanted := 2 * int64(cap(it.Read))
	if wanted < firstRoom {
		wanted = firstRoom
	}
	// (one more byte, by which the end is seen)
	if announced >= int64(len(it.Read)) && wanted > announced+1 {
		wanted = announced + 1
	}
	if wanted <= int64(len(it.Read)) || wanted > limit+1 {
		wanted = limit + 1
	}
	if !it.budget.Take(wanted) {
		return false
	}
	grown := make([]byte, len(it.Read), wanted)
	copy(grown, it.Read)
	it.budget.Give(it.held)
	it.Read, it.held = grown, wanted
	return true
}
