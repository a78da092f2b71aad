//go:build mvtgate_system

package mvtgate

// #cgo pkg-config: mvtgate
import "C"
