// Package telling has what operators read: lines of JSON, and metrics.
package telling

import (
	"encoding/json"
	"io"
	"strings"
	"sync"
	"time"
)

// Log writes a line of JSON for each call, at most so many a second; it counts those that it leaves out.
type Log struct {
	out     io.Writer
	most    int
	leftOut func(lines int)
	now     func() time.Time

	mutex   sync.Mutex
	second  int64
	written int
	missing int
	timer   *time.Timer
}

// NewLog is a log of at most so many lines a second. Each line that is left out is told to the function.
func NewLog(out io.Writer, most int, leftOut func(lines int)) *Log {
	return &Log{out: out, most: most, leftOut: leftOut, now: time.Now}
}

// Line writes the members, after the time and the event.
func (it *Log) Line(event string, members map[string]any) {
	it.mutex.Lock()
	defer it.mutex.Unlock()
	now := it.now()
	if second := now.Unix(); second != it.second {
		it.second, it.written = second, 0
	}
	if it.written >= it.most {
		it.missing++
		it.leftOut(1)
		it.remind(now)
		return
	}
	it.written++
	it.write(now, event, members)
}

// remind has the count written when the second is over, also where no other line comes.
func (it *Log) remind(now time.Time) {
	if it.timer == nil {
		it.timer = time.AfterFunc(now.Truncate(time.Second).Add(time.Second).Sub(now), it.Flush)
	}
}

// Flush writes how many lines were left out, if any were.
func (it *Log) Flush() {
	it.mutex.Lock()
	defer it.mutex.Unlock()
	if it.timer != nil {
		it.timer.Stop()
		it.timer = nil
	}
	if it.missing > 0 {
		it.write(it.now(), "left_out", map[string]any{"lines": it.missing})
		it.missing = 0
	}
}

func (it *Log) write(now time.Time, event string, members map[string]any) {
	line := map[string]any{"time": now.UTC().Format("2006-01-02T15:04:05.000Z"), "event": event}
	for key, value := range members {
		line[key] = value
	}
	var text strings.Builder
	encoder := json.NewEncoder(&text)
	encoder.SetEscapeHTML(false)
	if encoder.Encode(line) == nil {
		_, _ = io.WriteString(it.out, text.String())
	}
}

// Write takes the lines of Go's own server, such as those of a panic, so that a Log can be the output of a log.Logger.
func (it *Log) Write(text []byte) (int, error) {
	it.Line("server", map[string]any{"message": strings.TrimSpace(string(text))})
	return len(text), nil
}
