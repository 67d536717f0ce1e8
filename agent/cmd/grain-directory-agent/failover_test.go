package main

import (
	"fmt"
	"testing"
	"time"
)

// An agent is killed under traffic, so that the others suspect it before its beat is old: all has settled within a TTL and a lock delay, as where
// nobody asks it anything.
func TestKilledUnderTraffic(t *testing.T) {
	c := start(t)
	words := []string{"--ttl=6s", "--silent-after=2s"}
	one, two, three := c.agent(1, words...), c.agent(2, words...), c.agent(3, words...)
	for _, p := range []*process{one, two, three} {
		p.says("is ready", 1)
	}
	three.says("settled version 3", 1)
	ended := make(chan bool)
	defer close(ended)
	for _, p := range []*process{one, two} {
		client := p.dial(nil)
		for i := 0; i < 200; i++ {
			go func(i int) {
				for {
					select {
					case <-ended:
						return
					default:
						client.Find(forever, fmt.Sprintf("user/%d fresh", i))
						time.Sleep(50 * time.Millisecond)
					}
				}
			}(i)
		}
	}
	time.Sleep(2 * time.Second)
	began := time.Now()
	three.command.Process.Kill()
	one.says("settled version 4", 1)
	two.says("settled version 4", 1)
	if took := time.Since(began); took > 7*time.Second {
		t.Errorf("it took %v until all was settled, with a TTL of 6 s and a lock delay of 0.2 s", took)
	} else {
		t.Logf("settled after %v", took)
	}
}
