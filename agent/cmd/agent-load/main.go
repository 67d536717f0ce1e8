// agent-load drives agents by their sockets, for tools/partitions and for measuring:
//
//	agent-load ready --at A,B,.. [--seconds S]                 waits until all have settled the same version
//	agent-load work --at A,B,.. --clients N --seconds S --grains G [--tokens FILE] [--heedless] [--careful]
//	                                                            lives of few grains at random, each of which writes with its token to a store that
//	                                                            tests it, and ends, or has the grain migrate; every fourth client asks for it anew
//	                                                            in the same write. Status 1 where two works of a grain overlapped, or a token fell
//	agent-load quiet --at A,B,.. --grains G                    nothing is held; each grain can be had, and is found everywhere. Status 1 else
//	agent-load register|find --at A,B,.. --clients N --seconds S       how many a second, and how long one takes
//	agent-load etcd|redis --at ENDPOINT --clients N --seconds S        the same of etcd alone (a transaction a grain), of Redis alone (SET NX)
//	agent-load hold --at A --grains G --prefix P               activates grains, says how long that took, and holds them until it is ended
//	agent-load take --at A --grains G --prefix P               activates them as soon as that can be, and says when the first and the last was firm
package main

import (
	"context"
	"flag"
	"fmt"
	"os"
	"strings"
	"syscall"
	"time"
	"unsafe"

	"agent/clients/go/graindirectory"
)

type options struct {
	at       []string
	clients  int
	seconds  float64
	grains   int
	prefix   string
	tokens   string
	heedless bool
	careful  bool
	longest  time.Duration
}

func main() {
	if len(os.Args) < 2 {
		fmt.Fprintln(os.Stderr, "usage: agent-load ready|work|quiet|register|find|etcd|redis|hold|take --at SOCKET,.. [OPTION ..]")
		os.Exit(2)
	}
	var o options
	flags := flag.NewFlagSet("agent-load", flag.ExitOnError)
	at := flags.String("at", "", "sockets of agents, with commas; or an endpoint")
	flags.IntVar(&o.clients, "clients", 1, "how many clients there are")
	flags.Float64Var(&o.seconds, "seconds", 5, "for how long")
	flags.IntVar(&o.grains, "grains", 30, "how many grains there are")
	flags.StringVar(&o.prefix, "prefix", "g", "the kind of the grains")
	flags.StringVar(&o.tokens, "tokens", "", "a file that keeps the highest token of each grain from one run to the next")
	flags.BoolVar(&o.heedless, "heedless", false, "works go on until they are told to end, and don't heed the deadline")
	flags.BoolVar(&o.careful, "careful", false, "no client asks for a grain anew in the write in which it has it migrate")
	flags.DurationVar(&o.longest, "life", 400*time.Millisecond, "how long a work may be")
	flags.Parse(os.Args[2:])
	o.at = strings.Split(*at, ",")
	modes := map[string]func(options) error{"ready": ready, "work": work, "quiet": quiet, "register": register, "find": find, "etcd": etcd, "redis": redis,
		"hold": hold, "take": take}
	mode := modes[os.Args[1]]
	if mode == nil {
		fmt.Fprintf(os.Stderr, "agent-load: %q is none of its words\n", os.Args[1])
		os.Exit(2)
	}
	if err := mode(o); err != nil {
		fmt.Printf("%s: %v\n", os.Args[1], err)
		os.Exit(1)
	}
}

// now is the time since boot, in nanoseconds: one clock for all works on this machine.
func now() int64 {
	var t syscall.Timespec
	syscall.Syscall(syscall.SYS_CLOCK_GETTIME, 7, uintptr(unsafe.Pointer(&t)), 0)
	return t.Nano()
}

// forever is for what is waited for as long as it takes.
var forever = context.Background()

// connect connects to an agent, for what heeds no deadline: its clock may be another one, as where the rates of clocks are tried.
func connect(ctx context.Context, socket string) (*graindirectory.Client, error) {
	return graindirectory.Dialer{Path: socket, AnyClock: true}.Dial(ctx)
}

// dial connects as soon as that can be.
func dial(ctx context.Context, dialer graindirectory.Dialer) (*graindirectory.Client, error) {
	for {
		client, err := dialer.Dial(ctx)
		if err == nil || ctx.Err() != nil {
			return client, err
		}
		time.Sleep(20 * time.Millisecond)
	}
}
