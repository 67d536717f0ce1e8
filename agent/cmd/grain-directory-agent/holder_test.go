package main

import (
	"fmt"
	"os"
	"sort"
	"strconv"
	"strings"
	"testing"
	"time"
)

// looksUp asks for one grain of so many after the other until it is told to stop, and gives how long each look-up took, in order of that.
func (r *raw) looksUp(count int, stop <-chan bool) (took []time.Duration) {
	for i := 0; ; i++ {
		select {
		case <-stop:
			sort.Slice(took, func(i, j int) bool { return took[i] < took[j] })
			return took
		default:
			began := time.Now()
			r.says(fmt.Sprintf("l%d find user/%d fresh\n", i, i*7919%count))
			r.hears(fmt.Sprintf("l%d", i))
			took = append(took, time.Since(began))
		}
	}
}

// holds activates so many grains.
func (r *raw) holds(count int) {
	const atOnce = 500
	for i := 0; i < count; i += atOnce {
		var lines strings.Builder
		tags := make([]string, 0, atOnce)
		for j := i; j < i+atOnce && j < count; j++ {
			fmt.Fprintf(&lines, "h%d activate user/%d\n", j, j)
			tags = append(tags, "h"+strconv.Itoa(j))
		}
		r.says(lines.String())
		r.hearsAll(tags)
	}
}

// hearsAll reads on to the answers of many tags.
func (r *raw) hearsAll(tags []string) {
	r.Helper()
	waits := map[string]bool{}
	for _, tag := range tags {
		waits[tag] = true
	}
	r.conn.SetReadDeadline(time.Now().Add(60 * time.Second))
	for len(waits) > 0 && r.in.Scan() {
		tag, _, _ := strings.Cut(r.in.Text(), " ")
		delete(waits, tag)
	}
	if len(waits) > 0 {
		r.Fatalf("%d aren't answered: %v", len(waits), r.in.Err())
	}
}

// Who holds much and hangs up holds up nobody: look-ups go on at its agent and at another, and no agent is fenced. AGENT_HELD is how much that is.
func TestHolderOfManyHangsUp(t *testing.T) {
	count, err := strconv.Atoi(os.Getenv("AGENT_HELD"))
	if err != nil {
		count = 20000
	}
	c := start(t)
	one, two := c.agent(1, "--ttl=5s"), c.agent(2, "--ttl=5s") // for machines that others share
	one.says("is ready", 1)
	two.says("is ready", 1)
	holder, here, there := one.raw(), one.raw(), two.raw()
	holder.holds(count)
	stop, took := make(chan bool), make(chan []time.Duration, 2)
	go func() { took <- here.looksUp(count, stop) }()
	go func() { took <- there.looksUp(count, stop) }()
	time.Sleep(time.Second)
	began := time.Now()
	holder.conn.Close()
	status := one.raw()
	for held := ""; !strings.HasSuffix(held, " held 0"); time.Sleep(20 * time.Millisecond) {
		if time.Since(began) > time.Minute+time.Duration(count)*time.Millisecond/4 {
			t.Fatalf("%v later: %s", time.Since(began), held)
		}
		status.says("s status\n")
		held = status.hears("s")[0]
	}
	ended := time.Since(began)
	close(stop)
	for range []string{"one", "two"} {
		all := <-took
		p99, longest := all[len(all)*99/100], all[len(all)-1]
		t.Logf("%d grains ended within %v; of %d look-ups 99 of 100 took up to %v, the longest %v", count, ended, len(all), p99, longest)
		if longest > 500*time.Millisecond { // not 50 ms: other work takes the processors of who tests
			t.Errorf("a look-up took %v", longest)
		}
	}
	one.mu.Lock()
	defer one.mu.Unlock()
	if said := strings.Join(one.log, "\n"); strings.Contains(said, "ends: ") {
		t.Error("the agent was fenced")
	}
}
