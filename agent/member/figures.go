package member

import (
	"fmt"
	"io"
	"sort"
	"strings"

	"agent/metrics"
	"agent/ring"
	"agent/silo"
)

// Metrics writes what this silo's agent counts and measures.
func (m *Member) Metrics(out io.Writer) {
	page := metrics.NewPage(out, string(m.me))
	m.mu.Lock()
	status, settled, told, skipped, through := m.status, m.settled, m.told, m.skipped, m.through
	m.mu.Unlock()
	members, _ := m.members()
	figures, letters, carried := m.service.Figures(), m.silo.Counts(), m.post.Counts()
	beats, slowest := m.fence.Beats()

	page.Gauge("activations", "activations that this silo holds, by phase", float64(status.Held-status.Asking-status.Closing), "phase", "firm")
	page.Gauge("activations", "", float64(status.Asking), "phase", "asking")
	page.Gauge("activations", "", float64(status.Closing), "phase", "closing")
	page.Gauge("activations_left", "activations that nobody has any more, and whose end isn't begun", float64(figures.Left))
	page.Gauge("finds", "searches without an answer", float64(status.Finding))
	page.Gauge("version_known", "last version told to the silo", float64(told))
	page.Gauge("version_seen", "last version that the silo has seen", float64(status.Seen))
	page.Gauge("version_settled", "last version at which all its ranges were settled", float64(settled))
	page.Gauge("ranges_unsettled", "ranges of this silo that are not settled", float64(status.Unsettled))
	page.Gauge("snapshots_kept", "snapshots that this silo keeps for the ranges of others", float64(status.Kept))
	page.Counter("views_skipped_total", "views that the silo skipped, and could hand nothing over", float64(skipped))
	page.Gauge("members", "silos that are not dead", float64(len(members)))
	page.Gauge("members_cut", "members of which one and this silo don't hear one another", float64(len(through)))
	for _, silo := range sortedSilos(through) {
		page.Gauge("member_cut", "by member of which one and this silo don't hear one another: 1 where letters go through a third, 2 where none go",
			1+truth(through[silo] == ""), "member", string(silo), "through", string(through[silo]))
	}
	page.Gauge("applications", "connections of applications", float64(figures.Applications))
	page.Gauge("deadline_seconds", "time that is left until the deadline", m.fence.Until().Sub(m.options.Now()).Seconds())
	page.Counter("beats_total", "beats that the store confirmed", float64(beats))
	page.Gauge("beat_slowest_seconds", "slowest beat since the last look", slowest.Seconds())
	page.Counter("nudges_total", "nudges of the silo, each of a grain or of its ranges", float64(letters.Nudges))
	page.Counter("silo_letters_total", "letters that the silo read and wrote", float64(letters.LettersIn), "way", "in")
	page.Counter("silo_letters_total", "", float64(letters.LettersOut), "way", "out")
	page.Counter("letters_total", "letters carried", float64(carried.Sent), "way", "out")
	page.Counter("letters_total", "", float64(carried.Received), "way", "in")
	page.Counter("letter_bytes_total", "bytes carried", float64(carried.BytesSent), "way", "out")
	page.Counter("letter_bytes_total", "", float64(carried.BytesReceived), "way", "in")
	page.Counter("letters_cut_total", "letters that went in parts", float64(carried.Cut))
	page.Counter("lost_total", "what was lost here, since too much waited or the transport was down", float64(carried.MessagesLost), "what", "messages")
	page.Counter("lost_total", "", float64(carried.PartsLost), "what", "parts")
	page.Counter("lost_total", "", float64(letters.LettersLost), "what", "letters to a slow silo")
	page.Counter("lost_total", "", float64(carried.Forged), "what", "letters that are from others than they say, or have numbers that can't be")
	page.Counter("messages_relayed_total", "messages that went through another silo, or that this one handed on", float64(carried.Relayed))
	page.Counter("silo_faults_total", "letters that the silo refused or could not read", float64(letters.Faults))
	page.Gauge("silo_pending_bytes", "bytes that wait for the silo", float64(m.silo.Pending()))
	page.Gauge("transport_up", "whether the transport is connected", truth(m.post.Up()))
	for _, name := range sorted(figures.Counts) {
		if strings.HasPrefix(name, "asked ") {
			page.Counter("questions_total", "questions of applications", float64(figures.Counts[name]), "verb", name[len("asked "):])
		}
	}
	for _, name := range sorted(figures.Counts) {
		if words := strings.Fields(name); len(words) == 3 && words[0] == "delivered" {
			page.Counter("delivered_total", "letters that concern no application, by kind and effect", float64(figures.Counts[name]),
				"kind", words[1], "effect", words[2])
		}
	}
	for _, how := range []string{"removed", "absent"} {
		page.Counter("ended_total", "activations that ended, by whether the directory had them here until then", float64(figures.Counts["ended "+how]), "how", how)
	}
	for _, why := range []string{"601", "602", "603", "604"} {
		page.Counter("retries_total", "requests of this silo that an owner didn't serve: 601 another view, 602 not settled, 603 an old number, 604 not its hash",
			float64(figures.Counts["retry "+why]), "why", why)
	}
	for _, what := range []string{"activate", "deactivate", "find"} {
		page.Histogram("latency_seconds", "from a question to its granting", m.took[what], "verb", what)
	}
}

func truth(is bool) float64 {
	if is {
		return 1
	}
	return 0
}

func sorted(counts map[string]int64) (names []string) {
	for name := range counts {
		names = append(names, name)
	}
	sort.Strings(names)
	return names
}

// Ring draws the ring as this silo sees it.
func (m *Member) Ring(out io.Writer) error {
	dumps := make(chan string, 1)
	if !m.fence.May() {
		return fmt.Errorf("the silo is fenced")
	}
	if err := m.silo.Dump(func(dump string) { dumps <- dump }); err != nil {
		return err
	}
	select {
	case dump := <-dumps:
		if dump == "" {
			return fmt.Errorf("the silo's dump has more than 16 MiB: it has too much for its ring to be drawn; /metrics has its figures")
		}
		return ring.Draw(out, dump)
	case <-m.ctx.Done():
		return silo.ErrBusy
	}
}
