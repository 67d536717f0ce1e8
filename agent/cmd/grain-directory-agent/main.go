// grain-directory-agent runs one silo of a grain directory; see agent/README.md.
package main

import (
	"context"
	"errors"
	"fmt"
	"log"
	"os"
	"os/signal"
	"syscall"
	"time"

	"agent/guard"
	"agent/operation"
)

// The statuses with which the agent ends.
const (
	left     = 0
	cannot   = 1
	mistaken = 2
	fenced   = 3
	hurt     = 4
)

func main() {
	if len(os.Args) == 2 && os.Args[1] == guard.Word {
		guard.Main()
		return
	}
	config, err := operation.ReadConfig(os.Args[1:], os.Stdout)
	if errors.Is(err, operation.ErrHelp) {
		return
	}
	if err != nil {
		fmt.Fprintf(os.Stderr, "grain-directory-agent: %v\n", err)
		os.Exit(mistaken)
	}
	behind := operation.NewBehind(os.Stderr)
	logger := &operation.Logger{Out: behind, Level: config.Log, Journal: os.Getenv("JOURNAL_STREAM") != ""}
	logger.Named(config.Endpoint)
	log.SetFlags(0)
	log.SetOutput(logger)

	ctx, stop := signal.NotifyContext(context.Background(), syscall.SIGTERM, syscall.SIGINT)
	signal.Ignore(syscall.SIGPIPE)
	go func() {
		<-ctx.Done()
		stop() // a second signal ends it at once
	}()
	a := &agent{config: config, logger: logger}
	status := a.run(ctx)
	stop()
	behind.Close(time.Second)
	os.Exit(status)
}
