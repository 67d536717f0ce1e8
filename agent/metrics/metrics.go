// Package metrics counts and measures, and writes it as Prometheus reads it.
package metrics

import (
	"fmt"
	"io"
	"sort"
	"strings"
	"sync"
	"time"
)

// prefix is that of all names.
const prefix = "grain_directory_"

// bounds are those of histograms, in seconds.
var bounds = []float64{0.0001, 0.0002, 0.0005, 0.001, 0.002, 0.005, 0.01, 0.02, 0.05, 0.1, 0.2, 0.5, 1, 2, 5, 10, 30}

// Histogram is how long something took, each time. Its zero value is ready.
type Histogram struct {
	mu     sync.Mutex
	counts [20]int64
	sum    time.Duration
	count  int64
}

// Took notes one time.
func (h *Histogram) Took(took time.Duration) {
	h.mu.Lock()
	defer h.mu.Unlock()
	h.counts[sort.SearchFloat64s(bounds, took.Seconds())]++
	h.sum += took
	h.count++
}

// Page is a page of metrics that is being written.
type Page struct {
	out    io.Writer
	labels string
	family string
}

// NewPage begins a page, all of whose metrics have a label of the silo.
func NewPage(out io.Writer, silo string) *Page {
	return &Page{out: out, labels: fmt.Sprintf("silo=%q", silo)}
}

func (p *Page) head(name, help, kind string) {
	if p.family != name {
		p.family = name
		fmt.Fprintf(p.out, "# HELP %s%s %s\n# TYPE %s%s %s\n", prefix, name, help, prefix, name, kind)
	}
}

// Gauge writes what is now.
func (p *Page) Gauge(name, help string, value float64, labels ...string) {
	p.head(name, help, "gauge")
	p.write(name, labels, value)
}

// Counter writes what was counted so far. Its name ends in _total.
func (p *Page) Counter(name, help string, value float64, labels ...string) {
	p.head(name, help, "counter")
	p.write(name, labels, value)
}

func (p *Page) write(name string, labels []string, value float64) {
	all := p.labels
	for i := 0; i+1 < len(labels); i += 2 {
		all += fmt.Sprintf(",%s=%q", labels[i], labels[i+1])
	}
	fmt.Fprintf(p.out, "%s%s{%s} %s\n", prefix, name, all, number(value))
}

func number(value float64) string {
	return strings.TrimSuffix(strings.TrimRight(fmt.Sprintf("%.6f", value), "0"), ".")
}

// Histogram writes a histogram.
func (p *Page) Histogram(name, help string, h *Histogram, labels ...string) {
	p.head(name, help, "histogram")
	h.mu.Lock()
	defer h.mu.Unlock()
	cumulative := int64(0)
	for i, bound := range bounds {
		cumulative += h.counts[i]
		p.write(name+"_bucket", append(labels[:len(labels):len(labels)], "le", number(bound)), float64(cumulative))
	}
	p.write(name+"_bucket", append(labels[:len(labels):len(labels)], "le", "+Inf"), float64(h.count))
	p.write(name+"_sum", labels, h.sum.Seconds())
	p.write(name+"_count", labels, float64(h.count))
}
