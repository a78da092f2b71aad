// Command times measures Check, for bench/library:
//
//	times times ROUNDS FILE..
//	times rate SECONDS GOROUTINES FILE..
//
// times goes over all tiles in each round, with a batch of calls for each, and writes a line for each batch: the tile's number, and the
// nanoseconds of processor time that a call took. rate judges all tiles again and again, in so many goroutines at once, and writes one
// line: the calls, the seconds of processor time and those of the clock.
package main

import (
	"errors"
	"fmt"
	"log"
	"os"
	"runtime"
	"strconv"
	"sync"
	"sync/atomic"
	"syscall"
	"time"
	"unsafe"

	"mvtgate"
)

// The kernel's clocks of processor time, for which package syscall has no names. (Getrusage may count in ticks of some milliseconds.)
const (
	ofProcess = 2
	ofThread  = 3
)

// A batch of calls takes about so long, and has at most so many.
const (
	batchTime = 2 * time.Millisecond
	mostCalls = 1 << 16
)

// used is the processor time so far, by a clock.
func used(clock uintptr) time.Duration {
	var found syscall.Timespec
	if _, _, err := syscall.Syscall(syscall.SYS_CLOCK_GETTIME, clock, uintptr(unsafe.Pointer(&found)), 0); err != 0 {
		log.Fatal(err)
	}
	return time.Duration(found.Nano())
}

// check judges a tile; it doesn't matter what the verdict is.
func check(tile []byte) {
	var fault *mvtgate.Fault
	if err := mvtgate.Check(tile, mvtgate.ProfilePolygon); err != nil && !errors.As(err, &fault) {
		log.Fatal(err)
	}
}

// timeOf is how long so many calls take.
func timeOf(tile []byte, calls int) time.Duration {
	before := used(ofThread)
	for i := 0; i < calls; i++ {
		check(tile)
	}
	return used(ofThread) - before
}

// batch is how many calls take about batchTime.
func batch(tile []byte) int {
	calls := 1
	for calls < mostCalls && timeOf(tile, calls) < batchTime {
		calls *= 2
	}
	return calls
}

func printTimes(tiles [][]byte, rounds int) {
	runtime.LockOSThread()
	for round := 0; round < rounds; round++ {
		for number, tile := range tiles {
			calls := batch(tile)
			fmt.Printf("%d %.1f\n", number, float64(timeOf(tile, calls))/float64(calls))
		}
	}
}

func printRate(tiles [][]byte, length time.Duration, count int) {
	var calls atomic.Int64
	var group sync.WaitGroup
	before, begun := used(ofProcess), time.Now()
	for i := 0; i < count; i++ {
		group.Add(1)
		go func() {
			defer group.Done()
			for time.Since(begun) < length {
				for _, tile := range tiles {
					check(tile)
				}
				calls.Add(int64(len(tiles)))
			}
		}()
	}
	group.Wait()
	fmt.Printf("%d %.6f %.6f\n", calls.Load(), (used(ofProcess) - before).Seconds(), time.Since(begun).Seconds())
}

func read(files []string) [][]byte {
	var tiles [][]byte
	for _, file := range files {
		tile, err := os.ReadFile(file)
		if err != nil {
			log.Fatal(err)
		}
		tiles = append(tiles, tile)
	}
	return tiles
}

func number(word string) float64 {
	value, err := strconv.ParseFloat(word, 64)
	if err != nil {
		log.Fatal(err)
	}
	return value
}

func main() {
	words := os.Args[1:]
	switch {
	case len(words) > 2 && words[0] == "times":
		printTimes(read(words[2:]), int(number(words[1])))
	case len(words) > 3 && words[0] == "rate":
		length := time.Duration(number(words[1]) * float64(time.Second))
		printRate(read(words[3:]), length, int(number(words[2])))
	default:
		log.Fatal("usage: times times ROUNDS FILE.. | times rate SECONDS GOROUTINES FILE..")
	}
}
