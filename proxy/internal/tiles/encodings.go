package tiles

import (
	"net/http"
	"strconv"
	"strings"
)

// The encodings that can be unpacked, by what an answer's Content-Encoding says.
var encodings = map[string]string{"": "", "identity": "", "gzip": "gzip", "x-gzip": "gzip", "deflate": "deflate"}

// EncodingOf is how an answer is packed: "", gzip or deflate; and whether that is known.
func EncodingOf(header http.Header) (encoding string, isKnown bool) {
	encoding, isKnown = encodings[strings.ToLower(strings.TrimSpace(strings.Join(header.Values("Content-Encoding"), ",")))]
	return encoding, isKnown
}

// coding is one that a client takes, with its weight.
type coding struct {
	name, text string
	weight     float64
}

func codingsOf(header http.Header) []coding {
	var all []coding
	for _, text := range strings.Split(strings.Join(header.Values("Accept-Encoding"), ","), ",") {
		name, parameter, _ := strings.Cut(text, ";")
		if name = strings.ToLower(strings.TrimSpace(name)); name != "" {
			all = append(all, coding{name, strings.TrimSpace(text), weightOf(parameter)})
		}
	}
	return all
}

func weightOf(parameter string) float64 {
	name, number, isThere := strings.Cut(parameter, "=")
	if !isThere {
		return 1
	}
	weight, err := strconv.ParseFloat(strings.TrimSpace(number), 64)
	if err != nil || !strings.EqualFold(strings.TrimSpace(name), "q") {
		return 0
	}
	return weight
}

// Narrow leaves those encodings in a request that can be unpacked. A request without the header stays so.
func Narrow(header http.Header) {
	if len(header.Values("Accept-Encoding")) == 0 {
		return
	}
	var left []string
	for _, it := range codingsOf(header) {
		if _, isKnown := encodings[it.name]; isKnown {
			left = append(left, it.text)
		}
	}
	if len(left) == 0 {
		left = []string{"identity"}
	}
	header.Set("Accept-Encoding", strings.Join(left, ", "))
}

// Takes says whether a client that sent these headers takes an encoding. What it says of this one counts more than what it says of
// all.
func Takes(header http.Header, encoding string) bool {
	if encoding == "" {
		return true
	}
	weight := 0.0
	for _, it := range codingsOf(header) {
		if encodings[it.name] == encoding {
			return it.weight > 0
		}
		if it.name == "*" {
			weight = it.weight
		}
	}
	return weight > 0
}
