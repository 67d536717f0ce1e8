package main

import (
	"path/filepath"
	"testing"
	"time"

	"agent/directory"
)

// The supervisor's word is about who had the endpoint before this agent was started, and noted that here; never about the agent's own generations.
func TestSupervisorsWordIsNotForOnesOwn(t *testing.T) {
	const first, second = directory.Silo("10.0.0.1:7000@1"), directory.Silo("10.0.0.1:7000@2")
	var none, before, after word
	none.open("")
	path := filepath.Join(t.TempDir(), "joined")
	before.open(path)
	for _, w := range []*word{&none, &before} {
		if w.isAbout(first, "a") || w.isAbout(first, "") {
			t.Error("it is about one that nobody noted")
		}
		w.joined(first, "a")
		if w.isAbout(first, "a") {
			t.Error("this agent's own generation counts as ended by its supervisor")
		}
	}
	after.open(path)
	if after.file != nil || after.isAbout(first, "a") {
		t.Error("it is about an agent that runs")
	}
	before.file.Close()
	after.open(path)
	if !after.isAbout(first, "a") || after.isAbout(first, "b") || after.isAbout(second, "a") {
		t.Error("it isn't about just the last one")
	}
	after.joined(second, "b")
	if after.isAbout(first, "a") || after.isAbout(second, "b") {
		t.Error("it still is, behind a join of this agent")
	}
}

// An endpoint that is started elsewhere, as a machine that was made anew with its address, has no file that its last agent wrote: it waits for the
// end of the other, which goes on. Started again with the file, an agent takes its own place at once.
func TestAfterEndElsewhere(t *testing.T) {
	c := start(t)
	here, elsewhere := "--after-end="+filepath.Join(c.folder, "here"), "--after-end="+filepath.Join(c.folder, "elsewhere")
	one := c.agent(1, here, "--ttl=8s")
	one.says("is ready", 1)
	a := one.dial(nil)
	ann := firm(t, a, "user/ann")
	other := c.agent(1, elsewhere, "--ttl=8s", "--socket="+filepath.Join(c.folder, "other"), "--http=")
	other.says("waits up to", 1)
	time.Sleep(3 * time.Second)
	if !ann.May() || other.count("joined") > 0 {
		t.Error("it took the place of an agent that works")
	}
	other.command.Process.Kill()
	one.command.Process.Kill()
	one.command.Wait()
	<-a.Lost
	ann.Deactivate(forever)
	began := time.Now()
	again := c.agent(1, here, "--ttl=8s")
	again.says("joined", 1)
	if took := time.Since(began); took > 5*time.Second {
		t.Errorf("it took its own place after %v", took)
	}
}
