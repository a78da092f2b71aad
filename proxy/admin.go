package main

import (
	"context"
	"encoding/json"
	"io"
	"log"
	"net"
	"net/http"
	"net/url"
	"sync"
	"sync/atomic"
	"time"
)

// How long the upstream server may take to answer /healthz, and whoever asks for that or for /metrics.
const (
	healthTime = 2 * time.Second
	adminTime  = time.Minute
)

// health asks the upstream server, once for all who ask meanwhile.
type health struct {
	transport  http.RoundTripper
	url        *url.URL
	host       string
	isDraining atomic.Bool

	mutex    sync.Mutex
	question *question
}

type question struct {
	answered chan struct{}
	error    string
}

func newHealth(transport http.RoundTripper, url *url.URL, host string) *health {
	return &health{transport: transport, url: url, host: host}
}

func (it *health) drain() { it.isDraining.Store(true) }

// ServeHTTP is 200 where the upstream server answers, and 503 where it doesn't, or not soon, or this server is about to end.
func (it *health) ServeHTTP(writer http.ResponseWriter, _ *http.Request) {
	told, status := map[string]string{"status": "ok"}, http.StatusOK
	if error := it.error(); error != "" {
		told, status = map[string]string{"error": error}, http.StatusServiceUnavailable
	}
	writer.Header().Set("Content-Type", "application/json")
	writer.Header().Set("Cache-Control", "no-store")
	writer.WriteHeader(status)
	_ = json.NewEncoder(writer).Encode(told)
}

func (it *health) error() string {
	if it.isDraining.Load() {
		return "the server is ending"
	}
	asked := it.asked()
	<-asked.answered
	return asked.error
}

func (it *health) asked() *question {
	it.mutex.Lock()
	defer it.mutex.Unlock()
	if it.question == nil {
		it.question = &question{answered: make(chan struct{})}
		go it.ask(it.question)
	}
	return it.question
}

func (it *health) ask(asked *question) {
	asked.error = it.upstreamError()
	it.mutex.Lock()
	it.question = nil
	it.mutex.Unlock()
	close(asked.answered)
}

func (it *health) upstreamError() string {
	limit, cancel := context.WithTimeout(context.Background(), healthTime)
	defer cancel()
	request, err := http.NewRequestWithContext(limit, http.MethodGet, it.url.String(), nil)
	if err != nil {
		return "the upstream server's URL is wrong"
	}
	if it.host != "" {
		request.Host = it.host
	}
	response, err := it.transport.RoundTrip(request)
	if err != nil {
		return "the upstream server does not answer"
	}
	defer response.Body.Close()
	_, _ = io.CopyN(io.Discard, response.Body, mostHeaders)
	if response.StatusCode >= http.StatusInternalServerError {
		return "the upstream server answers " + response.Status
	}
	return ""
}

// adminServer serves /metrics and /healthz, where there is an address for them.
func (it *server) adminServer(errors *log.Logger) (*http.Server, string, error) {
	if it.admin == "" {
		return nil, "", nil
	}
	listener, err := net.Listen("tcp", it.admin)
	if err != nil {
		return nil, "", err
	}
	addresses := http.NewServeMux()
	addresses.Handle("/metrics", it.metrics.Handler())
	addresses.Handle("/healthz", it.health)
	made := &http.Server{
		Handler: addresses, ReadTimeout: adminTime, WriteTimeout: adminTime, IdleTimeout: idleTime,
		MaxHeaderBytes: mostHeaders, ErrorLog: errors,
	}
	go func() { _ = made.Serve(listener) }()
	return made, listener.Addr().String(), nil
}
