package guard

import (
	"fmt"
	"io"
	"sync/atomic"
	"testing"
	"time"

	"agent/clock"
)

func TestRun(t *testing.T) {
	for _, one := range []struct {
		name   string
		lines  []string
		close  bool
		at     int64
		killed string
	}{
		{"before the deadline", []string{"watch 7 100", "until 50", "until 90"}, false, 89, ""},
		{"at the deadline", []string{"watch 7 100", "watch 7 101", "until 50", "until 90"}, false, 90, "map[7:101]"},
		{"the agent is killed", []string{"watch 7 100", "until 90"}, true, 90, "map[7:100]"},
		{"the agent is killed, and its deadline to come", []string{"watch 7 100", "until 90"}, true, 89, ""},
		{"the agent is killed as it joins", nil, true, 0, "map[]"},
		{"the agent is killed, and all have hung up", []string{"watch 7 100", "until 90", "forget 7"}, true, 0, "map[]"},
		{"one has hung up", []string{"watch 7 100", "watch 8 100", "until 90", "forget 7", "forget 9"}, false, 90, "map[8:100]"},
		{"done", []string{"watch 7 100", "until 50", "done"}, true, 40, ""},
		{"nonsense", []string{"watch", "watch x 1", "until x", "", "until 90"}, false, 90, "map[]"},
	} {
		in, out := io.Pipe()
		var at int64
		killed, ended := map[int]string{}, make(chan bool)
		go func() {
			Run(in, io.Discard, func() clock.Time { return clock.Time(atomic.LoadInt64(&at)) }, func(process int, began string) { killed[process] = began })
			close(ended)
		}()
		for _, line := range one.lines {
			fmt.Fprintln(out, line)
		}
		time.Sleep(5 * time.Millisecond)
		if one.close {
			out.Close()
		}
		atomic.StoreInt64(&at, one.at)
		select {
		case <-ended:
			if one.killed == "" && one.name != "done" {
				t.Errorf("%s: it ended", one.name)
			} else if one.killed != "" && fmt.Sprint(killed) != one.killed {
				t.Errorf("%s: killed %v", one.name, killed)
			}
		case <-time.After(100 * time.Millisecond):
			if one.killed != "" {
				t.Errorf("%s: nothing is killed", one.name)
			}
			atomic.StoreInt64(&at, 1000)
			<-ended
		}
	}
}
