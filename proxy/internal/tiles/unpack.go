package tiles

import (
	"bytes"
	"compress/flate"
	"compress/zlib"
	"errors"
	"io"
	"sync"

	"github.com/klauspost/compress/gzip"
)

// ErrPacking says that bytes aren't packed as their encoding says.
var ErrPacking = errors.New("the bytes are not packed as Content-Encoding says")

var gzipReaders = sync.Pool{New: func() any { return new(gzip.Reader) }}

// Unpacked hands the bytes that were packed to a function that reads them. Whatever goes wrong with the packing is an ErrPacking;
// an error of the function comes back as it is.
func Unpacked(packed []byte, encoding string, read func(io.Reader) error) error {
	source := bytes.NewReader(packed)
	switch encoding {
	case "gzip":
		return ungzipped(source, read)
	case "deflate":
		return undeflated(source, packed, read)
	default:
		return read(source)
	}
}

// reader makes errors of the packing known.
type reader struct{ io.Reader }

func (it reader) Read(room []byte) (int, error) {
	count, err := it.Reader.Read(room)
	if err != nil && err != io.EOF {
		err = ErrPacking
	}
	return count, err
}

func ungzipped(source *bytes.Reader, read func(io.Reader) error) error {
	unpacking := gzipReaders.Get().(*gzip.Reader)
	defer gzipReaders.Put(unpacking)
	if unpacking.Reset(source) != nil {
		return ErrPacking
	}
	// (of several members browsers show the first one, which isn't what would be judged)
	unpacking.Multistream(false)
	if err := read(reader{unpacking}); err != nil {
		return err
	}
	return nothingLeft(source)
}

// nothingLeft says whether packed bytes end where what was unpacked of them does.
func nothingLeft(source *bytes.Reader) error {
	if source.Len() > 0 {
		return ErrPacking
	}
	return nil
}

// undeflated reads zlib's format, which the name means, and bare deflate, which some servers send. (It is Go's own: the faster one
// takes a bare deflate that ends too early for a whole one.)
func undeflated(source *bytes.Reader, packed []byte, read func(io.Reader) error) error {
	var unpacking io.ReadCloser
	if isZlib(packed) {
		made, err := zlib.NewReader(source)
		if err != nil {
			return ErrPacking
		}
		unpacking = made
	} else {
		unpacking = flate.NewReader(source)
	}
	defer unpacking.Close()
	if err := read(reader{unpacking}); err != nil {
		return err
	}
	return nothingLeft(source)
}

// isZlib says whether the two bytes of zlib's head are there, by RFC 1950.
func isZlib(packed []byte) bool {
	return len(packed) >= 2 && packed[0]&15 == 8 && (int(packed[0])<<8|int(packed[1]))%31 == 0
}

var gzipWriters = sync.Pool{New: func() any { made, _ := gzip.NewWriterLevel(io.Discard, 6); return made }}

// Packed packs a tile by an encoding. The same tile is always packed the same.
func Packed(tile []byte, encoding string) ([]byte, error) {
	var packed bytes.Buffer
	var err error
	switch encoding {
	case "gzip":
		packing := gzipWriters.Get().(*gzip.Writer)
		defer gzipWriters.Put(packing)
		packing.Reset(&packed)
		_, err = packing.Write(tile)
		err = firstOf(err, packing.Close())
	case "deflate":
		packing := zlib.NewWriter(&packed)
		_, err = packing.Write(tile)
		err = firstOf(err, packing.Close())
	default:
		return tile, nil
	}
	return packed.Bytes(), err
}

func firstOf(first, second error) error {
	if first != nil {
		return first
	}
	return second
}
