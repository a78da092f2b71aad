package relay

import (
	"bufio"
	"log"
	"net"
	"net/http"
	"net/http/httputil"
	"net/url"
	"strings"
	"sync"
	"time"
)

// statusClientGone is what is counted where the client went away before it had an answer, as nginx does.
const statusClientGone = 499

// Proxy is the reverse proxy to the upstream server at a URL. The host is that of the requests upstream; the client's own where it is
// "".
func (it *Relay) Proxy(upstream *url.URL, host string, errors *log.Logger) http.Handler {
	proxy := httputil.NewSingleHostReverseProxy(upstream)
	direct := proxy.Director
	proxy.Director = func(request *http.Request) {
		forwarded(request)
		stayByRequests(request)
		direct(request)
		if host != "" {
			request.Host = host
		}
	}
	proxy.Transport = it
	proxy.ErrorLog = errors
	proxy.BufferPool = &buffers{sync.Pool{New: func() any { made := make([]byte, 32<<10); return &made }}}
	proxy.ModifyResponse = func(response *http.Response) error {
		relocate(response.Header, upstream)
		return nil
	}
	proxy.ErrorHandler = func(writer http.ResponseWriter, _ *http.Request, _ error) { writer.WriteHeader(statusClientGone) }
	return it.counted(proxy)
}

// forwarded says upstream which address the client asked, unless a proxy before this one did.
func forwarded(request *http.Request) {
	if request.Header.Get("X-Forwarded-Host") == "" {
		request.Header.Set("X-Forwarded-Host", request.Host)
	}
	if request.Header.Get("X-Forwarded-Proto") == "" {
		request.Header.Set("X-Forwarded-Proto", "http")
	}
}

// stayByRequests has the upstream server answer by HTTP/1.1 where a client offers h2c, as that of Java does: what goes through such a
// connection isn't judged.
func stayByRequests(request *http.Request) {
	if strings.Contains(strings.ToLower(request.Header.Get("Upgrade")), "h2c") {
		request.Header.Del("Upgrade")
	}
}

// relocate turns the upstream server's own address in a redirect into that of the client, which is this proxy's.
func relocate(header http.Header, upstream *url.URL) {
	location, err := url.Parse(header.Get("Location"))
	if err != nil || location.Host == "" || location.Host != upstream.Host || location.Scheme != upstream.Scheme {
		return
	}
	base := strings.TrimSuffix(upstream.EscapedPath(), "/")
	path := location.EscapedPath()
	if !strings.HasPrefix(path+"/", base+"/") {
		return
	}
	relative := strings.TrimPrefix(path, base)
	if !strings.HasPrefix(relative, "/") || strings.HasPrefix(relative, "//") {
		relative = "/" + strings.TrimLeft(relative, "/")
	}
	if location.RawQuery != "" {
		relative += "?" + location.RawQuery
	}
	if location.Fragment != "" {
		relative += "#" + location.EscapedFragment()
	}
	header.Set("Location", relative)
}

// counted counts and times each request.
func (it *Relay) counted(next http.Handler) http.Handler {
	return http.HandlerFunc(func(writer http.ResponseWriter, request *http.Request) {
		begun := time.Now()
		noted := &noting{ResponseWriter: writer, status: http.StatusOK}
		defer func() { it.Metrics.Request(noted.status, time.Since(begun)) }()
		next.ServeHTTP(noted, WithAsked(request))
	})
}

// noting notes the status of an answer.
type noting struct {
	http.ResponseWriter
	status int
}

func (it *noting) WriteHeader(status int) {
	it.status = status
	it.ResponseWriter.WriteHeader(status)
}

// Flush sends what was written, for answers that stream.
func (it *noting) Flush() {
	if flusher, canFlush := it.ResponseWriter.(http.Flusher); canFlush {
		flusher.Flush()
	}
}

// Hijack is for upgrades, such as those to web sockets.
func (it *noting) Hijack() (net.Conn, *bufio.ReadWriter, error) {
	if hijacker, canHijack := it.ResponseWriter.(http.Hijacker); canHijack {
		return hijacker.Hijack()
	}
	return nil, nil, http.ErrNotSupported
}

// buffers are those by which answers are copied.
type buffers struct{ pool sync.Pool }

func (it *buffers) Get() []byte { return *it.pool.Get().(*[]byte) }

func (it *buffers) Put(buffer []byte) { it.pool.Put(&buffer) }
