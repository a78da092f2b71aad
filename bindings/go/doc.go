// Package mvtgate judges uncompressed Mapbox vector tiles in this process, by the library libmvtgate, whose verdicts are proved.
//
//	if err := mvtgate.Check(tile, mvtgate.ProfilePolygon); err != nil {
//		log.Print(err) // a *Fault, with its sentence; or ErrOutOfMemory: then nothing is known of the tile
//		return err     // keep it back
//	}
//
// A tile is handed over uncompressed: bytes of gzip get the fault 104. The library reads the slice in place, so nobody may
// write to it while a call runs. No call keeps anything, so any number of goroutines may call at once; each call holds a thread
// of the system to its end, and nothing can interrupt it.
//
// # Memory
//
// The library takes its memory outside of Go's heap. The worst tiles that were tried take 31 times their bytes to be judged, 46 times
// to be listed, 54 times for advice and 21 times for a dump. To be mended they take 144 bytes more for each vertex, of which there is
// one in two bytes at most: 103 times. Where it is refused a call says so ([ErrOutOfMemory]).
//
// Go's heap has the answers, a list some 200 bytes for each fault, and the rooms that the library writes them to: for Mend the
// tile's length and 8 KiB; for Dump 4 times that length, but at most 16 MiB, and where the text is longer what it takes. Where these
// are refused the process ends, as everywhere in Go.
//
// # Linking
//
// The static library of bindings/c/out in the repository is linked, which tools/library builds. With the build tag mvtgate_system
// it is the one that pkg-config knows, such as that of the package libmvtgate-dev. It is for Linux on x86-64 (level v2). Go's build
// cache doesn't see that a library was built anew: build with -a then.
//
// This takes cgo, and so a C compiler: with CGO_ENABLED=0 the compiler says that names are undefined. A copy that `go mod vendor`
// makes lacks the header and the library, which lie beside this module: build it with the tag mvtgate_system.
package mvtgate
