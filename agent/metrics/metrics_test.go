package metrics

import (
	"strings"
	"testing"
	"time"
)

func TestPage(t *testing.T) {
	var h Histogram
	for _, took := range []time.Duration{100 * time.Microsecond, 101 * time.Microsecond, 3 * time.Millisecond, time.Minute} {
		h.Took(took)
	}
	var out strings.Builder
	p := NewPage(&out, "10.0.0.1:1000@1")
	p.Gauge("held", "activations", 3)
	p.Counter("lost_total", "letters", 1, "where", `a"b`)
	p.Counter("lost_total", "letters", 2, "where", "c")
	p.Histogram("seconds", "times", &h, "what", "find")
	text := out.String()
	for _, line := range []string{
		"# HELP grain_directory_held activations\n# TYPE grain_directory_held gauge\ngrain_directory_held{silo=\"10.0.0.1:1000@1\"} 3\n",
		"# TYPE grain_directory_lost_total counter\ngrain_directory_lost_total{silo=\"10.0.0.1:1000@1\",where=\"a\\\"b\"} 1\ngrain_directory_lost_total{silo=\"10.0.0.1:1000@1\",where=\"c\"} 2\n",
		"grain_directory_seconds_bucket{silo=\"10.0.0.1:1000@1\",what=\"find\",le=\"0.0001\"} 1\n",
		"grain_directory_seconds_bucket{silo=\"10.0.0.1:1000@1\",what=\"find\",le=\"0.0002\"} 2\n",
		"grain_directory_seconds_bucket{silo=\"10.0.0.1:1000@1\",what=\"find\",le=\"0.005\"} 3\n",
		"grain_directory_seconds_bucket{silo=\"10.0.0.1:1000@1\",what=\"find\",le=\"30\"} 3\n",
		"grain_directory_seconds_bucket{silo=\"10.0.0.1:1000@1\",what=\"find\",le=\"+Inf\"} 4\n",
		"grain_directory_seconds_sum{silo=\"10.0.0.1:1000@1\",what=\"find\"} 60.003201\n",
		"grain_directory_seconds_count{silo=\"10.0.0.1:1000@1\",what=\"find\"} 4\n",
	} {
		if !strings.Contains(text, line) {
			t.Errorf("%q isn't in\n%s", line, text)
		}
	}
}

func TestNumber(t *testing.T) {
	for value, text := range map[float64]string{0: "0", 1: "1", 1000000: "1000000", 0.5: "0.5", 0.0001: "0.0001", 100: "100"} {
		if number(value) != text {
			t.Errorf("%v is written %s", value, number(value))
		}
	}
}
