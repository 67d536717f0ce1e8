package main

import (
	"context"
	"errors"
	"os/exec"
	"testing"

	"agent/directory"
	"agent/membership"
	"agent/membership/etcdstore"
)

// An agent goes by a directory of an older release, which has no version; its operator raises that, once; and a directory of a version that an agent
// doesn't speak isn't joined.
func TestVersions(t *testing.T) {
	c := start(t)
	one := c.agent(1)
	one.says("is ready", 1)
	store, err := etcdstore.Open(etcdstore.Options{Endpoints: []string{c.etcd}, Directory: "main"})
	if err != nil {
		t.Fatal(err)
	}
	defer store.Close()
	settings := func() string {
		entries, _, err := store.Read(forever, "settings")
		if err != nil || len(entries) != 1 {
			t.Fatal(entries, err)
		}
		return entries[0].Value
	}
	newest := settings()
	put := func(text string) {
		transaction := membership.Transaction{Put: []membership.Entry{{Key: "settings", Value: text}}}
		if _, _, err := store.Commit(context.Background(), transaction); err != nil {
			t.Fatal(err)
		}
	}
	put(newest[len("version=2 "):])
	two := c.agent(2)
	two.says("is ready", 1)
	raises := c.agent(3, "--raise")
	raises.says("has version 2, and had 1", 1)
	if err := raises.command.Wait(); err != nil || settings() != newest {
		t.Error(err, settings())
	}
	put(directory.WithVersion(newest, 9))
	other := c.agent(4)
	var exit *exec.ExitError
	if err := other.command.Wait(); !errors.As(err, &exit) || exit.ExitCode() != mistaken {
		t.Error(err)
	}
	other.says("the directory has version 9 of lines, messages and store, and this agent speaks versions 1 to 2", 1)
}
