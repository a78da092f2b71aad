package relay

import (
	"context"
	"errors"
	"net"
	"net/http"
	"sync/atomic"
	"time"

	"mvtgate-proxy/internal/gate"
)

// patience is how long an upstream server is waited for. Whoever has one calls pass or end.
type patience struct {
	context context.Context
	parent  context.Context
	cancel  context.CancelFunc
	timer   *time.Timer
	isOver  atomic.Bool
}

func newPatience(parent context.Context, limit time.Duration) *patience {
	it := &patience{parent: parent}
	it.context, it.cancel = context.WithCancel(parent)
	it.timer = time.AfterFunc(limit, func() {
		it.isOver.Store(true)
		it.cancel()
	})
	return it
}

// pass lets an answer stream as long as it likes.
func (it *patience) pass(response *http.Response) {
	it.timer.Stop()
	inner := response.Body
	response.Body = &body{Reader: inner, close: func() error {
		defer it.cancel()
		return inner.Close()
	}}
}

// last lets a connection last that speaks another protocol from here on. (The request's own context ends it.)
func (it *patience) last() { it.timer.Stop() }

// end closes the answer, if there is one.
func (it *patience) end(response *http.Response) {
	it.timer.Stop()
	if response != nil {
		_ = response.Body.Close()
	}
	it.cancel()
}

// reasonOf is why there is no answer, or not all of it: an *Unjudged, other where nothing else is known; or that the client is
// gone.
func (it *patience) reasonOf(err error, other *gate.Unjudged) error {
	if gone := it.parent.Err(); gone != nil {
		return gone
	}
	if it.isOver.Load() {
		return gate.TooSlow
	}
	return reasonOf(err, other)
}

func reasonOf(err error, other *gate.Unjudged) error {
	var late net.Error
	switch {
	case unjudgedOf(err) != nil:
		return err
	case errors.As(err, &late) && late.Timeout():
		return gate.TooSlow
	default:
		return other
	}
}

// unjudgedOf is the *Unjudged that an error is, or nil.
func unjudgedOf(err error) *gate.Unjudged {
	var reason *gate.Unjudged
	if errors.As(err, &reason) {
		return reason
	}
	return nil
}
