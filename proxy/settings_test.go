package main

import (
	"io"
	"strings"
	"testing"
)

func TestTheHeapHasRoomForWhatIsKept(t *testing.T) {
	it, err := read(strings.Fields("--upstream http://a --memory 4G --last-good 8G --remember 32M"), io.Discard)
	if err != nil || it.heap() != 12<<30+32<<20 {
		t.Error(it.heap(), err)
	}
}

func TestMemoryHasRoomForTheLongestTile(t *testing.T) {
	for words, isEnough := range map[string]bool{
		"--max-tile 1M --memory 40M":                                  true,
		"--max-tile 1M --memory 39M":                                  false,
		"--max-tile 1M --memory 140M --mode mend":                     true,
		"--max-tile 1M --memory 139M --mode mend":                     false,
		"--max-tile 64M --memory 3584M --mode mend":                   true,
		"--max-tile 64M --memory 3583M --mode mend":                   false,
		"--max-tile 64M --memory 2560M --mode mend":                   false,
		"--max-tile 64M --memory 2560M --mode mend --profile feature": true,
		"--max-tile 2M --memory 148M --mode mend --profile feature":   true,
		"--max-tile 2M --memory 147M --mode mend --profile feature":   false,
	} {
		_, err := read(strings.Fields("--upstream http://a --max-packed 1M "+words), io.Discard)
		if (err == nil) != isEnough {
			t.Error(words, err)
		}
	}
}
