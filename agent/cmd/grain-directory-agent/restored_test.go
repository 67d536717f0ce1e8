package main

import (
	"errors"
	"fmt"
	"os"
	"os/exec"
	"path/filepath"
	"sync"
	"testing"
	"time"

	"agent/clients/go/graindirectory"
	"agent/servers"
)

// status is how a process ended.
func (p *process) status() int {
	var exit *exec.ExitError
	if errors.As(p.command.Wait(), &exit) {
		return exit.ExitCode()
	}
	return 0
}

// firmTwice asks two agents for the same grains, and gives how many two applications may work for at one time, within a while.
func firmTwice(one, other *process, while time.Duration) int {
	const many = 60
	var mu sync.Mutex
	works := map[string]map[*process]*graindirectory.Work{}
	for i := 0; i < many; i++ {
		works[fmt.Sprintf("user/g%d", i)] = map[*process]*graindirectory.Work{}
	}
	for _, p := range []*process{one, other} {
		client, err := graindirectory.Dial(forever, p.socket, nil)
		if err != nil {
			continue // it has ended
		}
		for grain := range works {
			go func(p *process, grain string) {
				if work, err := client.Activate(forever, grain); err == nil {
					mu.Lock()
					defer mu.Unlock()
					works[grain][p] = work
				}
			}(p, grain)
		}
	}
	twice := map[string]bool{}
	for began := time.Now(); time.Since(began) < while; time.Sleep(5 * time.Millisecond) {
		mu.Lock()
		for grain, at := range works {
			if x, y := at[one], at[other]; x != nil && y != nil && x.May() && y.May() {
				twice[grain] = true
			}
		}
		mu.Unlock()
	}
	return len(twice)
}

// etcd is restored from a backup that lacks the last change, and the agent of that is lost with it. Those that go on end with status 4 by their next
// beat; a fresh one waits until they have surely ended, and so no grain is worked for twice.
func TestRestoredBackup(t *testing.T) {
	if os.Getenv("SILO_PROGRAM") == "" {
		t.Skip("SILO_PROGRAM names no silo's program")
	}
	etcd := servers.RestorableEtcd(t)
	c := &cluster{T: t, folder: t.TempDir(), etcd: etcd.Endpoint, nats: servers.NATS(t), ports: map[int]int{}, https: map[int]int{}}
	const ttl = "--ttl=6s"
	one := c.agent(1, ttl)
	one.says("is ready", 1)
	etcd.Save(t, filepath.Join(c.folder, "backup"))
	two := c.agent(2, ttl)
	two.says("is ready", 1)
	one.says("settled version 2", 1)
	two.command.Process.Kill()
	etcd.Restore(t)
	three := c.agent(3, ttl)
	ended := make(chan int, 1)
	go func() { ended <- one.status() }()
	if twice := firmTwice(one, three, 3*time.Second); twice > 0 {
		t.Errorf("two applications may work for %d grains at one time", twice)
	}
	if one.count("ends: ") == 0 {
		t.Error("half of a TTL later it goes on")
	}
	if status := <-ended; status != hurt { // once applications have hung up, or should have
		t.Errorf("it ended with %d", status)
	}
	one.says("an older state of it was restored", 1)
	three.says("is ready", 1)
}

// A store that is wiped ends all agents with status 4; started again, they begin no directory.
func TestWipedStore(t *testing.T) {
	if os.Getenv("SILO_PROGRAM") == "" {
		t.Skip("SILO_PROGRAM names no silo's program")
	}
	etcd := servers.RestorableEtcd(t)
	c := &cluster{T: t, folder: t.TempDir(), etcd: etcd.Endpoint, nats: servers.NATS(t), ports: map[int]int{}, https: map[int]int{}}
	one := c.agent(1)
	one.says("is ready", 1)
	etcd.Ctl(t, "--endpoints", etcd.Endpoint, "del", "--prefix", "/grain-directory/main/")
	if status := one.status(); status != hurt {
		t.Errorf("it ended with %d", status)
	}
	again := c.agent(1)
	again.says("the store has no directory of this name", 1)
	time.Sleep(500 * time.Millisecond)
	if again.count("joined") > 0 {
		t.Error("it began the directory anew")
	}
}
