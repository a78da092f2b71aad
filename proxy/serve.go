package main

import (
	"context"
	"log"
	"net"
	"net/http"
	"os"
	"runtime/debug"
	"syscall"
	"time"

	"mvtgate-proxy/internal/bounds"
	"mvtgate-proxy/internal/gate"
	"mvtgate-proxy/internal/relay"
	"mvtgate-proxy/internal/telling"
)

const (
	idleTime        = 2 * time.Minute
	dialTime        = 10 * time.Second
	mostHeaders     = 64 << 10
	mostUpstream    = 1 << 20
	idleConnections = 512
)

// server is all that runs.
type server struct {
	*settings
	metrics   *telling.Metrics
	log       *telling.Log
	transport *http.Transport
	relay     *relay.Relay
	health    *health
}

// tcpUserTimeout is TCP_USER_TIMEOUT of Linux, which package syscall doesn't name.
const tcpUserTimeout = 18

// dialer makes connections that end where the other side doesn't confirm what is sent for so long. A server that has gone without a
// word would otherwise be asked by HTTP/2 over the same connection for a quarter of an hour.
func dialer(unconfirmed time.Duration) *net.Dialer {
	return &net.Dialer{Timeout: dialTime, KeepAlive: 30 * time.Second, Control: func(_, _ string, connection syscall.RawConn) error {
		return connection.Control(func(socket uintptr) {
			// (a system that doesn't know it does without)
			_ = syscall.SetsockoptInt(int(socket), syscall.IPPROTO_TCP, tcpUserTimeout, int(unconfirmed.Milliseconds()))
		})
	}}
}

func newServer(it *settings) *server {
	metrics := telling.NewMetrics()
	made := &server{settings: it, metrics: metrics, log: telling.NewLog(os.Stderr, it.logLines, metrics.LeftOut)}
	made.transport = &http.Transport{
		DialContext:            dialer(it.upstreamTime).DialContext,
		TLSHandshakeTimeout:    dialTime,
		ResponseHeaderTimeout:  it.upstreamTime,
		DisableCompression:     true,
		ForceAttemptHTTP2:      true,
		MaxIdleConns:           idleConnections,
		MaxIdleConnsPerHost:    idleConnections,
		IdleConnTimeout:        idleTime,
		MaxResponseHeaderBytes: mostUpstream,
		WriteBufferSize:        4 << 10,
		ReadBufferSize:         32 << 10,
	}
	budget := gate.NewBudget(int64(it.memory))
	made.relay = &relay.Relay{
		Upstream: made.transport, Known: it.known, Budget: budget, Mode: it.mode, MaxPacked: int64(it.maxPacked),
		UpstreamTime: it.upstreamTime, Metrics: metrics, Log: made.log,
		Gate: gate.New(gate.Settings{
			Profile: it.profile, Exact: it.exact, NotEmpty: it.notEmpty, Drop: it.drop, MaxTile: int64(it.maxTile),
			AtOnce: it.judgements, Wait: it.judgeWait, Remember: int64(it.remember), Observe: metrics.Judged,
		}, budget),
	}
	if it.mode != relay.Report {
		made.relay.Good = relay.NewGood(int64(it.lastGood))
	}
	made.health = newHealth(made.transport, it.healthURL(), it.host)
	return made
}

// gauges adds what is kept and what is under way.
func (it *server) gauges(listener *bounds.Listener) {
	gauge := func(name, help string, value func() (int, int64), isBytes bool) {
		it.metrics.Gauge(name, help, func() float64 {
			count, bytes := value()
			if isBytes {
				return float64(bytes)
			}
			return float64(count)
		})
	}
	gauge("last_good_tiles", "Last good tiles that are kept", it.relay.Good.Size, false)
	gauge("last_good_bytes", "Bytes that the last good tiles take", it.relay.Good.Size, true)
	gauge("remembered_verdicts", "Verdicts that are kept", it.relay.Gate.Remembered, false)
	gauge("remembered_bytes", "Bytes that verdicts take", it.relay.Gate.Remembered, true)
	it.metrics.Gauge("judging", "Tiles that are being judged", func() float64 { return float64(it.relay.Gate.Judging()) })
	it.metrics.Gauge("memory_bytes", "Bytes of --memory that are taken", func() float64 { return float64(it.relay.Budget.Taken()) })
	it.metrics.Gauge("connections", "Connections of clients", func() float64 { return float64(listener.Connections()) })
}

// serve serves until the context ends, and then what is under way.
func serve(end context.Context, it *settings) error {
	if os.Getenv("GOMEMLIMIT") == "" {
		// (so it is tidied before it is far above; a lower limit would have it tidied all the time)
		debug.SetMemoryLimit(it.heap())
	}
	made := newServer(it)
	inner, err := net.Listen("tcp", it.listen)
	if err != nil {
		return err
	}
	listener := bounds.NewListener(inner, it.connections, it.clientTime)
	made.gauges(listener)
	errors := log.New(made.log, "", 0)
	tiles := &http.Server{
		Handler:           bounds.Bodies(it.clientTime, made.relay.Proxy(it.url, it.host, errors)),
		ReadHeaderTimeout: it.clientTime,
		IdleTimeout:       idleTime,
		MaxHeaderBytes:    mostHeaders,
		ErrorLog:          errors,
		ConnContext:       bounds.WithConnection,
	}
	admin, adminAddress, err := made.adminServer(errors)
	if err != nil {
		return err
	}
	made.log.Line("listening", map[string]any{
		"address": listener.Addr().String(), "admin": adminAddress, "upstream": it.url.Redacted(), "mode": it.mode, "profile": it.profile.String(),
	})
	failed := make(chan error, 1)
	go func() { failed <- tiles.Serve(listener) }()
	made.notify("READY=1")
	select {
	case err := <-failed:
		return err
	case <-end.Done():
	}
	return made.drain(tiles, admin)
}

// notify tells systemd of a state. Without an answer systemd goes by its own time.
func (it *server) notify(state string) {
	if err := notify(state); err != nil {
		it.log.Line("server", map[string]any{"message": "systemd is not told " + state + ": " + err.Error()})
	}
}

// drain ends the server after what is under way.
func (it *server) drain(tiles, admin *http.Server) error {
	it.health.drain()
	it.notify("STOPPING=1")
	it.log.Line("draining", nil)
	limit, cancel := context.WithTimeout(context.Background(), it.drainTime)
	defer cancel()
	err := tiles.Shutdown(limit)
	if err != nil {
		it.log.Line("cut", map[string]any{"message": "some requests were not answered in time"})
		err = tiles.Close()
	}
	if admin != nil {
		_ = admin.Close()
	}
	it.log.Flush()
	return err
}
