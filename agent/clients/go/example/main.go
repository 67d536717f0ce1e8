// example counts in a grain for as long as it may: example SOCKET GRAIN
package main

import (
	"context"
	"errors"
	"fmt"
	"os"
	"time"

	"agent/clients/go/graindirectory"
)

func main() {
	if len(os.Args) != 3 {
		fmt.Fprintln(os.Stderr, "usage: example SOCKET GRAIN")
		os.Exit(2)
	}
	for ; ; time.Sleep(time.Second) {
		client, err := graindirectory.Dial(context.Background(), os.Args[1], nil)
		if err != nil {
			fmt.Println(err)
			continue
		}
		live(client, os.Args[2])
		client.Close()
	}
}

// live works the grain whenever it can be had, until all is lost.
func live(client *graindirectory.Client, grain string) {
	for {
		work, err := client.Activate(context.Background(), grain)
		var taken graindirectory.Taken
		if errors.As(err, &taken) {
			fmt.Println(taken)
			time.Sleep(time.Second)
			continue
		}
		if err != nil {
			fmt.Println(err)
			return
		}
		count(work)
		work.Deactivate(context.Background())
	}
}

// count is the grain's work: a step each second, tested before its effect.
func count(work *graindirectory.Work) {
	for step := 1; ; step++ {
		select {
		case <-work.Ends:
			return
		case <-time.After(time.Second):
		}
		if !work.May() {
			return
		}
		fmt.Println(work.Activation, work.Grain, "token", work.Token, "step", step)
	}
}
