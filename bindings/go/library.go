package mvtgate

// #include <mvtgate.h>
import "C"

import (
	"fmt"
	"math"
	"sync"
)

// The statuses of the library that are told apart here.
const (
	statusOK           = 0
	statusNo           = 1
	statusNoMemory     = C.MVTGATE_NO_MEMORY
	statusNoRoom       = C.MVTGATE_NO_ROOM
	statusNoProfile    = C.MVTGATE_NO_PROFILE
	statusNotJSON      = C.MVTGATE_NOT_JSON
	statusNotAFault    = C.MVTGATE_NOT_A_FAULT
	statusOutsideRange = C.MVTGATE_FAULT_RANGE
	statusMended       = C.MVTGATE_MENDED
)

const textRoom = C.MVTGATE_TEXT_ROOM

// What a call takes for bytes of which there are none: the library wants an address all the same.
var noBytes = [1]byte{}

// address is that of the first byte. The slice's memory is handed to the library as it is.
func address(bytes []byte) *C.uint8_t {
	if len(bytes) == 0 {
		return (*C.uint8_t)(&noBytes[0])
	}
	return (*C.uint8_t)(&bytes[0])
}

// room is where the library writes the text of one fault. What is handed to C lies on the heap, so rooms are used again.
type room struct {
	length C.size_t
	text   [textRoom]byte
}

var rooms = sync.Pool{New: func() any { return new(room) }}

// judge is a call that writes one fault or several.
type judge func(profile C.uint32_t, tile *C.uint8_t, tileLength C.size_t, text *C.uint8_t, textRoom C.size_t, length *C.size_t) C.int

func check(profile C.uint32_t, tile *C.uint8_t, tileLength C.size_t, text *C.uint8_t, textRoom C.size_t, length *C.size_t) C.int {
	return C.mvtgate_check(profile, tile, tileLength, text, textRoom, length)
}

func checkQuickly(profile C.uint32_t, tile *C.uint8_t, tileLength C.size_t, text *C.uint8_t, textRoom C.size_t, length *C.size_t) C.int {
	return C.mvtgate_check_quickly(profile, tile, tileLength, text, textRoom, length)
}

func faults(profile C.uint32_t, tile *C.uint8_t, tileLength C.size_t, text *C.uint8_t, textRoom C.size_t, length *C.size_t) C.int {
	return C.mvtgate_faults(profile, tile, tileLength, text, textRoom, length)
}

func faultsQuickly(profile C.uint32_t, tile *C.uint8_t, tileLength C.size_t, text *C.uint8_t, textRoom C.size_t, length *C.size_t) C.int {
	return C.mvtgate_faults_quickly(profile, tile, tileLength, text, textRoom, length)
}

func dump(_ C.uint32_t, tile *C.uint8_t, tileLength C.size_t, text *C.uint8_t, textRoom C.size_t, length *C.size_t) C.int {
	return C.mvtgate_dump(tile, tileLength, text, textRoom, length)
}

func advise(_ C.uint32_t, tile *C.uint8_t, tileLength C.size_t, text *C.uint8_t, textRoom C.size_t, length *C.size_t) C.int {
	return C.mvtgate_advise(tile, tileLength, text, textRoom, length)
}

// judged is nil for a tile that a call finds valid, else its fault, or why there is no verdict.
func judged(call judge, tile []byte, profile Profile) error {
	its := rooms.Get().(*room)
	defer rooms.Put(its)
	switch status := call(C.uint32_t(profile), address(tile), C.size_t(len(tile)), (*C.uint8_t)(&its.text[0]), textRoom, &its.length); status {
	case statusOK:
		return nil
	case statusNo:
		return faultOfLibrary(its.text[:its.length])
	default:
		return failure(int(status), profile)
	}
}

// written is what a call writes by the status 0, or by the status 1. The first room has so many bytes; where that is too small the
// call is made again.
func written(call judge, tile []byte, profile Profile, first int) (text []byte, isFault bool, err error) {
	length := new(C.size_t)
	for wanted := first; ; {
		text := make([]byte, wanted)
		status := call(C.uint32_t(profile), address(tile), C.size_t(len(tile)), address(text), C.size_t(len(text)), length)
		switch {
		case status == statusOK || status == statusNo:
			return text[:*length], status == statusNo, nil
		case status == statusNoRoom && *length > C.size_t(wanted) && *length < math.MaxInt:
			wanted = int(*length)
		default:
			return nil, false, failure(int(status), profile)
		}
	}
}

// mendedOnce is what one call of mending writes into rooms of these lengths: its status, and what it wrote or wants to write.
func mendedOnce(tile []byte, profile Profile, drop bool, out, report []byte) (status, outLength, reportLength int) {
	lengths := new([2]C.size_t)
	var drops C.uint32_t
	if drop {
		drops = 1
	}
	status = int(C.mvtgate_mend(C.uint32_t(profile), drops, address(tile), C.size_t(len(tile)),
		address(out), C.size_t(len(out)), &lengths[0], address(report), C.size_t(len(report)), &lengths[1]))
	return status, int(lengths[0]), int(lengths[1])
}

func confirmed(tile, text []byte, profile Profile) (bool, error) {
	status := C.mvtgate_confirm(C.uint32_t(profile), address(tile), C.size_t(len(tile)), address(text), C.size_t(len(text)))
	switch status {
	case statusOK, statusNo:
		return status == statusOK, nil
	case statusNotJSON:
		return false, ErrNotJSON
	case statusNotAFault:
		return false, ErrNotAFault
	case statusOutsideRange:
		return false, ErrFaultRange
	default:
		return false, failure(int(status), profile)
	}
}

// failure is why a call has no answer, by a status that isn't an answer of its own.
func failure(status int, profile Profile) error {
	switch status {
	case statusNoMemory:
		return ErrOutOfMemory
	case statusNoProfile:
		return fmt.Errorf("mvtgate: no profile has the number %d", uint32(profile))
	default:
		return &VersionError{Said: fmt.Sprintf("the status %d", status)}
	}
}

// Version is that of the library that is linked, such as "0.1.0".
func Version() string {
	number := uint32(C.mvtgate_version())
	return fmt.Sprintf("%d.%d.%d", number/10000, number/100%100, number%100)
}
