// Package bounds bounds what clients may take: connections, and time.
package bounds

import (
	"context"
	"net"
	"net/http"
	"sync"
	"sync/atomic"
	"time"
)

// Listener accepts so many connections at one time; a client that takes none of an answer for so long is left.
type Listener struct {
	net.Listener
	slots chan struct{}
	limit time.Duration
	open  atomic.Int64
}

// NewListener bounds a listener.
func NewListener(inner net.Listener, connections int, limit time.Duration) *Listener {
	return &Listener{Listener: inner, slots: make(chan struct{}, connections), limit: limit}
}

// Connections is how many there are.
func (it *Listener) Connections() int64 { return it.open.Load() }

// Accept waits until there is a connection, and fewer others than may be.
func (it *Listener) Accept() (net.Conn, error) {
	it.slots <- struct{}{}
	inner, err := it.Listener.Accept()
	if err != nil {
		<-it.slots
		return nil, err
	}
	it.open.Add(1)
	return &connection{Conn: inner, listener: it}, nil
}

type connection struct {
	net.Conn
	listener *Listener
	closing  sync.Once
}

// Write ends with an error where the client doesn't take the bytes in time.
func (it *connection) Write(bytes []byte) (int, error) {
	if err := it.SetWriteDeadline(time.Now().Add(it.listener.limit)); err != nil {
		return 0, err
	}
	return it.Conn.Write(bytes)
}

func (it *connection) Close() error {
	it.closing.Do(func() {
		it.listener.open.Add(-1)
		<-it.listener.slots
	})
	return it.Conn.Close()
}

type connectionKey struct{}

// WithConnection is for http.Server.ConnContext.
func WithConnection(of context.Context, connection net.Conn) context.Context {
	return context.WithValue(of, connectionKey{}, connection)
}

// Bodies has each part of a request's body wait at most so long for the client.
func Bodies(limit time.Duration, next http.Handler) http.Handler {
	return http.HandlerFunc(func(writer http.ResponseWriter, request *http.Request) {
		connection, isThere := request.Context().Value(connectionKey{}).(net.Conn)
		if isThere && request.Body != nil && request.Body != http.NoBody {
			request.Body = &slowBody{ReadCloser: request.Body, connection: connection, limit: limit}
		}
		next.ServeHTTP(writer, request)
	})
}
