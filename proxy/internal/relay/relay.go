// Package relay stands between a reverse proxy and its upstream server: it judges the answers that are tiles, and leaves all others as
// they are.
package relay

import (
	"context"
	"fmt"
	"net/http"
	"time"

	"mvtgate-proxy/internal/bounds"
	"mvtgate-proxy/internal/gate"
	"mvtgate-proxy/internal/telling"
	"mvtgate-proxy/internal/tiles"
)

// Mode is what is done with a tile that doesn't pass.
type Mode string

// Report sends it all the same and tells of it; Refuse sends a refusal in its place; Mend a mended tile, or a refusal.
const (
	Report Mode = "report"
	Refuse Mode = "refuse"
	Mend   Mode = "mend"
)

// MarshalText is the mode's name.
func (it Mode) MarshalText() ([]byte, error) { return []byte(it), nil }

// UnmarshalText reads the mode's name.
func (it *Mode) UnmarshalText(text []byte) error {
	switch mode := Mode(text); mode {
	case Report, Refuse, Mend:
		*it = mode
		return nil
	}
	return fmt.Errorf("there is no mode %q; there are report, refuse and mend", text)
}

// Relay is the http.RoundTripper of a reverse proxy. The context of each request has what the client asked (WithAsked).
type Relay struct {
	Upstream http.RoundTripper
	Known    *tiles.Known
	Gate     *gate.Gate
	Budget   *gate.Budget
	Mode     Mode
	// MaxPacked is how many bytes a tile may have as it is sent.
	MaxPacked int64
	// UpstreamTime is how long the upstream server may take to a tile's end, or for other content to its headers.
	UpstreamTime time.Duration
	Good         *Good
	Metrics      *telling.Metrics
	Log          *telling.Log
}

type askedKey struct{}

// WithAsked is a request whose context has the request itself, as it came from the client.
func WithAsked(request *http.Request) *http.Request {
	return request.WithContext(context.WithValue(request.Context(), askedKey{}, request))
}

// RoundTrip is the answer that the client gets. There is an error only where the client is gone.
func (it *Relay) RoundTrip(request *http.Request) (*http.Response, error) {
	asked, isThere := request.Context().Value(askedKey{}).(*http.Request)
	if !isThere {
		asked = request
	}
	exchange := &exchange{Relay: it, request: request, asked: asked, begun: time.Now()}
	if request.Method == http.MethodGet || request.Method == http.MethodHead {
		return exchange.run()
	}
	response, err := it.Upstream.RoundTrip(request)
	switch {
	case err == nil:
		return response, nil
	case bounds.IsLate(asked):
		return exchange.refusal(gate.ClientSlow, nil), nil
	default:
		return exchange.noContent(reasonOf(err, gate.Gone))
	}
}
