package mvtgate

import "errors"

var (
	// ErrOutOfMemory says that memory was refused to the library. Nothing is known of the tile, so it must not be published. Where
	// the rooms in Go's heap for a mended tile, a dump or a list are refused, the process ends.
	ErrOutOfMemory = errors.New("mvtgate: out of memory")
	// ErrEmpty is for a tile of no bytes, by [CheckNotEmpty] alone.
	ErrEmpty = errors.New("mvtgate: the tile has no bytes")
	// ErrNotJSON is for the text of a fault that isn't JSON.
	ErrNotJSON = errors.New("mvtgate: the text is not JSON")
	// ErrNotAFault is for a text that is JSON, and no fault.
	ErrNotAFault = errors.New("mvtgate: the text holds no fault")
	// ErrFaultRange is for the text of a fault with a number that is out of range.
	ErrFaultRange = errors.New("mvtgate: a number of the fault is out of range")
)

// VersionError says that the library that is linked answers what this package doesn't know: it is of another version.
type VersionError struct {
	// Said is what the library answered.
	Said string
}

func (it *VersionError) Error() string {
	return "mvtgate: libmvtgate " + Version() + " is of another version than this package: it gives " + it.Said
}
