package main

import (
	"context"
	"fmt"
	"testing"
	"time"

	"agent/clients/go/graindirectory"
	"agent/membership"
	"agent/membership/etcdstore"
)

// A directory with many changes, as one agent makes that is started again and again, is compacted by its agents; they go on, and others join.
func TestManyChanges(t *testing.T) {
	c := start(t)
	const words = "--ttl=4s"
	c.create("--etcd="+c.etcd, "--points=4", words)
	store, err := etcdstore.Open(etcdstore.Options{Endpoints: []string{c.etcd}, Directory: "main"})
	if err != nil {
		t.Fatal(err)
	}
	defer store.Close()
	ctx, done := context.WithTimeout(context.Background(), time.Minute)
	defer done()
	var puts []membership.Entry
	for version := 1; version <= 6000; version++ {
		text := fmt.Sprintf("joined 10.9.9.9:7000@%d token%d", (version+1)/2, version)
		if version%2 == 0 {
			text = fmt.Sprintf("dead 10.9.9.9:7000@%d", version/2)
		}
		if puts = append(puts, membership.Entry{Key: fmt.Sprintf("change/%010d", version), Value: text}); len(puts) == 100 {
			if _, _, err := store.Commit(ctx, membership.Transaction{Put: puts}); err != nil {
				t.Fatal(err)
			}
			puts = nil
		}
	}
	one, two := c.agent(1, words), c.agent(2, words)
	one.says("is ready", 1)
	two.says("is ready", 1)
	a, b := one.dial(nil), two.dial(nil)
	ann := firm(t, a, "user/ann")
	for end := time.Now().Add(60 * time.Second); ; time.Sleep(100 * time.Millisecond) {
		entries, _, err := store.Read(ctx, "change/")
		if err == nil && len(entries) <= 1100 {
			break
		}
		if time.Now().After(end) {
			t.Fatalf("%d changes stand in the store", len(entries))
		}
	}
	three := c.agent(3, words)
	three.says("is ready", 1)
	for _, client := range []*graindirectory.Client{b, three.dial(nil)} {
		until(t, "it is found", func() bool { at, err := client.Find(ctx, "user/ann fresh"); return err == nil && at == ann.Activation })
	}
	if !ann.May() || one.count("ends: ")+two.count("ends: ") > 0 {
		t.Error("an agent ended")
	}
	two.command.Process.Kill()
	two.command.Wait()
	c.agent(2, words).says("is ready", 1)
}
