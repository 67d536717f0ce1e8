package main

import (
	"context"
	"fmt"
	"strings"
	"time"

	"agent/clients/go/graindirectory"
)

// ready waits until all agents have settled the same version.
func ready(o options) error {
	began := time.Now()
	until := began.Add(time.Duration(o.seconds * float64(time.Second)))
	for {
		versions := map[uint64]bool{}
		settled := true
		said := ""
		for _, socket := range o.at {
			status, err := statusOf(socket)
			if err != nil || status.settled != status.version || status.version == 0 || status.members != len(o.at) {
				settled = false
				said += fmt.Sprintf("%s: %+v %v; ", socket, status, err)
			}
			versions[status.version] = true
		}
		if settled && len(versions) == 1 {
			fmt.Printf("ready after %v\n", time.Since(began).Round(time.Millisecond))
			return nil
		}
		if time.Now().After(until) {
			return fmt.Errorf("they aren't ready after %v: %s", time.Since(began).Round(time.Second), said)
		}
		time.Sleep(10 * time.Millisecond)
	}
}

type status struct {
	version, settled uint64
	members, held    int
}

func statusOf(socket string) (s status, err error) {
	ctx, done := context.WithTimeout(forever, 5*time.Second) // an agent that joins doesn't answer
	defer done()
	client, err := connect(ctx, socket)
	if err != nil {
		return s, err
	}
	defer client.Close()
	words, err := client.Ask(ctx, "status")
	if err != nil {
		return s, err
	}
	var silo string
	var seen uint64
	_, err = fmt.Sscanf(strings.Join(words[1:], " "), "%s version %d seen %d settled %d members %d held %d", &silo, &s.version, &seen, &s.settled, &s.members, &s.held)
	return s, err
}

// quiet tests a directory in which nothing goes on: nothing is held, each grain can be had at one agent, and all agents find it there.
func quiet(o options) error {
	ctx, done := context.WithTimeout(forever, 30*time.Second)
	defer done()
	var clients []*graindirectory.Client
	for _, socket := range o.at {
		client, err := dial(ctx, graindirectory.Dialer{Path: socket, AnyClock: true})
		if err != nil {
			return err
		}
		defer client.Close()
		clients = append(clients, client)
	}
	for _, socket := range o.at {
		for held := -1; held != 0; time.Sleep(20 * time.Millisecond) {
			s, err := statusOf(socket)
			if held = s.held; ctx.Err() != nil {
				return fmt.Errorf("%s holds %d activations that nobody has: %v", socket, held, err)
			}
		}
	}
	for i := 0; i < o.grains; i++ {
		grain := fmt.Sprintf("%s/%d", o.prefix, i)
		if err := tryGrain(ctx, clients, grain, i%len(clients)); err != nil {
			return fmt.Errorf("%s: %w", grain, err)
		}
	}
	fmt.Printf("quiet: %d grains can be had, and are found by all of %d agents\n", o.grains, len(clients))
	return nil
}

func tryGrain(ctx context.Context, clients []*graindirectory.Client, grain string, at int) error {
	for _, client := range clients {
		if where, err := client.Find(ctx, grain+" fresh"); err != nil || where != "" {
			return fmt.Errorf("it is found as %q, though nobody has it: %v", where, err)
		}
	}
	work, err := clients[at].Activate(ctx, grain)
	if err != nil {
		return err
	}
	for _, client := range clients {
		if where, err := client.Find(ctx, grain+" fresh"); err != nil || where != work.Activation {
			return fmt.Errorf("it is found as %q, and is %s: %v", where, work.Activation, err)
		}
	}
	return work.Deactivate(ctx)
}
