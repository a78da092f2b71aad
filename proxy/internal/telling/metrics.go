package telling

import (
	"net/http"
	"strconv"
	"sync"
	"time"

	"github.com/prometheus/client_golang/prometheus"
	"github.com/prometheus/client_golang/prometheus/collectors"
	"github.com/prometheus/client_golang/prometheus/promhttp"
)

const prefix = "mvtgate_proxy_"

// Other stands for a layer that has no name, or isn't one of those that are told apart.
const Other = "other"

// How many layers are told apart, and how long a name may be, whatever the tiles hold.
const mostLayers, mostBytes = 200, 100

// What is done with a tile.
const (
	Sent     = "sent"
	Reported = "reported"
	Refused  = "refused"
	Mended   = "mended"
	Stale    = "stale"
)

// Metrics are all counters and histograms. Each label has few values, whatever is asked for and whatever the tiles hold.
type Metrics struct {
	registry *prometheus.Registry
	requests *prometheus.CounterVec
	tiles    *prometheus.CounterVec
	faults   *prometheus.CounterVec
	unjudged *prometheus.CounterVec
	errors   *prometheus.CounterVec
	leftOut  prometheus.Counter
	judging  prometheus.Histogram
	upstream prometheus.Histogram
	all      prometheus.Histogram

	mutex  sync.Mutex
	layers map[string]bool
}

// NewMetrics are metrics that are all 0.
func NewMetrics() *Metrics {
	it := &Metrics{registry: prometheus.NewRegistry(), layers: map[string]bool{}}
	it.registry.MustRegister(collectors.NewGoCollector(), collectors.NewProcessCollector(collectors.ProcessCollectorOpts{}))
	it.requests = it.counters("requests_total", "Requests that were answered", "status")
	it.tiles = it.counters("tiles_total", "Tiles by what the gate said, and what was done with them", "verdict", "answer")
	it.faults = it.counters("faults_total", "Tiles with a fault, by its code and its layer, and what was done with them", "code", "layer", "answer")
	it.unjudged = it.counters("unjudged_total", "Tiles of which nothing is known, by the reason, and what was done with them", "reason", "answer")
	it.errors = it.counters("upstream_errors_total", "Requests for other content than tiles to which the upstream server gave no answer", "reason")
	it.leftOut = prometheus.NewCounter(prometheus.CounterOpts{Name: prefix + "log_lines_left_out_total", Help: "Lines that the log left out"})
	it.judging = histogram("judge_seconds", "Time that the judgement of a tile took, without unpacking", 0.00001, 4, 11)
	it.upstream = histogram("upstream_seconds", "Time until the upstream server had sent a tile", 0.0003, 3, 12)
	it.all = histogram("request_seconds", "Time from a request to the end of its answer", 0.0003, 3, 12)
	it.registry.MustRegister(it.leftOut, it.judging, it.upstream, it.all)
	// (so that each is there from the beginning, as 0)
	for verdict, answer := range map[string]string{"valid": Sent, "fault": Refused, "unjudged": Refused} {
		it.tiles.WithLabelValues(verdict, answer).Add(0)
	}
	return it
}

func (it *Metrics) counters(name, help string, labels ...string) *prometheus.CounterVec {
	made := prometheus.NewCounterVec(prometheus.CounterOpts{Name: prefix + name, Help: help}, labels)
	it.registry.MustRegister(made)
	return made
}

func histogram(name, help string, least, factor float64, count int) prometheus.Histogram {
	buckets := prometheus.ExponentialBuckets(least, factor, count)
	return prometheus.NewHistogram(prometheus.HistogramOpts{Name: prefix + name, Help: help, Buckets: buckets})
}

// Gauge adds what a function says when it is asked for.
func (it *Metrics) Gauge(name, help string, value func() float64) {
	it.registry.MustRegister(prometheus.NewGaugeFunc(prometheus.GaugeOpts{Name: prefix + name, Help: help}, value))
}

// Handler answers Prometheus.
func (it *Metrics) Handler() http.Handler {
	return promhttp.HandlerFor(it.registry, promhttp.HandlerOpts{Registry: it.registry})
}

// Request counts an answer.
func (it *Metrics) Request(status int, took time.Duration) {
	it.requests.WithLabelValues(strconv.Itoa(status)).Inc()
	it.all.Observe(took.Seconds())
}

// Valid counts a tile that is sent since it is valid.
func (it *Metrics) Valid() { it.tiles.WithLabelValues("valid", Sent).Inc() }

// Fault counts a tile with a fault.
func (it *Metrics) Fault(code int, layer, answer string) {
	it.tiles.WithLabelValues("fault", answer).Inc()
	it.faults.WithLabelValues(strconv.Itoa(code), it.layer(layer), answer).Inc()
}

// Unjudged counts a tile of which nothing is known.
func (it *Metrics) Unjudged(reason, answer string) {
	it.tiles.WithLabelValues("unjudged", answer).Inc()
	it.unjudged.WithLabelValues(reason, answer).Inc()
}

// UpstreamError counts other content that isn't there.
func (it *Metrics) UpstreamError(reason string) { it.errors.WithLabelValues(reason).Inc() }

// LeftOut counts lines that the log leaves out.
func (it *Metrics) LeftOut(lines int) { it.leftOut.Add(float64(lines)) }

// Judged is told how long a judgement took.
func (it *Metrics) Judged(took time.Duration) { it.judging.Observe(took.Seconds()) }

// Upstream is told how long the upstream server took for a tile.
func (it *Metrics) Upstream(took time.Duration) { it.upstream.Observe(took.Seconds()) }

// layer is the label for a layer's name.
func (it *Metrics) layer(name string) string {
	it.mutex.Lock()
	defer it.mutex.Unlock()
	switch {
	case name == "" || len(name) > mostBytes:
		return Other
	case it.layers[name]:
		return name
	case len(it.layers) >= mostLayers:
		return Other
	}
	it.layers[name] = true
	return name
}
