//go:build !mvtgate_system

package mvtgate

// #cgo CFLAGS: -I${SRCDIR}/../c
// #cgo LDFLAGS: ${SRCDIR}/../c/out/libmvtgate.a
import "C"
