package telling

import (
	"encoding/json"
	"strings"
	"sync"
	"testing"
	"time"
)

// clocked is a log with a clock of its own.
func clocked(most int) (log *Log, text *strings.Builder, now *time.Time, leftOut *int) {
	text, now, leftOut = new(strings.Builder), new(time.Time), new(int)
	*now = time.Unix(1000, 0)
	log = NewLog(text, most, func(lines int) { *leftOut += lines })
	log.now = func() time.Time { return *now }
	return log, text, now, leftOut
}

func TestLinesAreFewASecondAndTheOthersAreCounted(t *testing.T) {
	log, text, now, leftOut := clocked(3)
	for at := 0; at < 10; at++ {
		log.Line("fault", map[string]any{"at": at})
	}
	log.Flush()
	*now = now.Add(time.Second)
	log.Line("fault", map[string]any{"at": 10, "text": "<a>"})
	var events []string
	for _, line := range strings.Split(strings.TrimSpace(text.String()), "\n") {
		var members map[string]any
		if err := json.Unmarshal([]byte(line), &members); err != nil {
			t.Fatal(line, err)
		}
		events = append(events, members["event"].(string))
		if members["event"] == "left_out" && members["lines"] != 7.0 {
			t.Error(line)
		}
	}
	if strings.Join(events, " ") != "fault fault fault left_out fault" || *leftOut != 7 || !strings.Contains(text.String(), "<a>") {
		t.Error(events, *leftOut)
	}
}

// locked is a text that goroutines share.
type locked struct {
	mutex sync.Mutex
	text  strings.Builder
}

func (it *locked) Write(bytes []byte) (int, error) {
	it.mutex.Lock()
	defer it.mutex.Unlock()
	return it.text.Write(bytes)
}

func (it *locked) has(text string) bool {
	it.mutex.Lock()
	defer it.mutex.Unlock()
	return strings.Contains(it.text.String(), text)
}

func TestTheCountComesAlsoWhereNoOtherLineDoes(t *testing.T) {
	var text locked
	log := NewLog(&text, 1, func(int) {})
	// (where the second changes between the lines, both are written: then again)
	for attempt := 0; attempt < 1000; attempt++ {
		log.Line("fault", nil)
	}
	for end := time.Now().Add(time.Minute); !text.has(`"event":"left_out"`); time.Sleep(time.Millisecond) {
		if time.Now().After(end) {
			t.Fatal(text.text.String())
		}
	}
}
