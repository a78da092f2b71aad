package gate

import "net/http"

// Unjudged is why nothing is known of a tile.
type Unjudged struct {
	// Code is a word for programs.
	Code string
	// Sentence is the same for people.
	Sentence string
	// Status is that of the answer in place of the tile.
	Status int
	// RetryAfter is after how many seconds to ask again, where that may help.
	RetryAfter int
}

func (it *Unjudged) Error() string { return it.Sentence }

// Why a tile isn't judged. Those of the upstream are also the answers where other content isn't there.
var (
	TooLong     = &Unjudged{"too_long", "the tile is longer than the limit", http.StatusBadGateway, 0}
	Packing     = &Unjudged{"packing", "the tile is not packed as its Content-Encoding says", http.StatusBadGateway, 0}
	Encoding    = &Unjudged{"encoding", "the tile has a Content-Encoding that cannot be unpacked", http.StatusBadGateway, 0}
	Empty       = &Unjudged{"empty", "the tile has no bytes", http.StatusBadGateway, 0}
	Busy        = &Unjudged{"busy", "too many tiles are being judged", http.StatusServiceUnavailable, 2}
	OutOfMemory = &Unjudged{"out_of_memory", "there is no memory left for the tile", http.StatusServiceUnavailable, 2}
	Gone        = &Unjudged{"upstream_gone", "the upstream server does not answer", http.StatusBadGateway, 2}
	Cut         = &Unjudged{"upstream_cut", "the upstream server's answer ended too early", http.StatusBadGateway, 2}
	TooSlow     = &Unjudged{"upstream_too_slow", "the upstream server's answer took too long", http.StatusGatewayTimeout, 30}
	ClientSlow  = &Unjudged{"client_too_slow", "the request's body did not come", http.StatusRequestTimeout, 0}
	OtherError  = &Unjudged{"internal", "the gate failed", http.StatusInternalServerError, 0}
)
