package main

import (
	"context"
	"log"
	"os"
	"path/filepath"
	"sync"
	"time"

	"agent/clock"
	"agent/directory"
	"agent/guard"
	"agent/member"
	"agent/membership"
	"agent/operation"
	"agent/silo"
	"agent/transport"
	"agent/transport/natscarrier"
	"agent/transport/tcpcarrier"
)

// How long a call of the store may take at most, and how long to wait before another try.
const (
	call  = 3 * time.Second
	retry = 200 * time.Millisecond
)

// agent runs one generation of its silo after the other.
type agent struct {
	config operation.Config
	logger *operation.Logger
	word   word

	mu      sync.Mutex
	current *member.Member
}

// now is the member that there is, or nil.
func (a *agent) now() *member.Member {
	a.mu.Lock()
	defer a.mu.Unlock()
	return a.current
}

func (a *agent) set(m *member.Member) {
	a.mu.Lock()
	defer a.mu.Unlock()
	a.current = m
}

// run runs until the agent is told to leave, and answers the program's status.
func (a *agent) run(ctx context.Context) int {
	if a.config.Create {
		return a.create(ctx)
	}
	if a.config.Raise {
		return a.raise(ctx)
	}
	if err := silo.Check(a.config.Program, directory.At(a.config.Endpoint, 1), a.config.Settings, a.config.Activations); err != nil {
		log.Printf("error: %v", err)
		if isMistake(err) {
			return mistaken
		}
		return cannot
	}
	if a.config.Settings.Transport == "tcp" && a.config.TCPTLS.Authority == "" {
		log.Printf("warning: letters go without certificates: whoever reaches %s can forge them, and make two activations of a grain", a.config.Endpoint)
	}
	store, err := a.openStore(ctx)
	if ctx.Err() != nil {
		return left
	}
	if err != nil {
		log.Printf("error: the store: %v", err)
		return cannot
	}
	defer store.Close()
	if err := a.agree(ctx, store); ctx.Err() != nil {
		return left
	} else if err != nil {
		log.Printf("error: %v", err)
		if isMistake(err) {
			return mistaken
		}
		return cannot
	}
	if a.config.HTTP != "" {
		if err := a.serveHTTP(); err != nil {
			log.Printf("error: --http: %v", err)
			return cannot
		}
	}
	go a.watchdog()
	following, stop := context.WithCancel(context.Background())
	defer stop()
	go a.watchQuota(following, store)
	sequence := membership.New(store, membership.Timing{TTL: a.config.Settings.TTL, LockDelay: a.config.LockDelay, Call: a.call(), Retry: retry}, clock.Boot)
	go sequence.Follow(following)
	return a.generations(ctx, sequence)
}

// generations runs generations of the silo until it leaves.
func (a *agent) generations(ctx context.Context, sequence *membership.Sequence) int {
	var last member.Outcome
	var between pauses
	a.word.open(a.config.AfterEnd)
	for ctx.Err() == nil {
		began := clock.Boot()
		var outcome member.Outcome
		m, err := a.join(ctx, sequence, func(old directory.Silo, token string) bool {
			return last.Ended && old == last.Silo || a.word.isAbout(old, token)
		})
		if err != nil {
			if ctx.Err() != nil {
				return left
			}
			log.Printf("error: it doesn't join: %v", err)
			if isHurt(sequence) {
				return hurt
			}
			if !a.config.Rejoin {
				return cannot
			}
		} else {
			var isOver bool
			if outcome, isOver = a.live(ctx, m); isOver {
				operation.Notify("STATUS=has left")
				return left
			}
			if isHurt(sequence) {
				return hurt
			}
			if !a.config.Rejoin {
				return fenced
			}
			last = outcome
			a.awaitReach(ctx, sequence, outcome.Severed)
		}
		wait := between.after(clock.Boot().Sub(began), outcome)
		if wait > 0 {
			log.Printf("joins again in %v", wait)
		}
		pause(ctx, wait)
	}
	return left
}

// isHurt says whether the store forgot or changed what was decided: then no generation may follow.
func isHurt(sequence *membership.Sequence) bool {
	err := sequence.Fault()
	if err != nil {
		log.Printf("error: %v", err)
	}
	return err != nil
}

// join makes the next generation.
func (a *agent) join(ctx context.Context, sequence *membership.Sequence, ended func(directory.Silo, string) bool) (*member.Member, error) {
	if err := a.awaitSocketFolder(ctx); err != nil {
		return nil, err
	}
	line, err := a.openLine(ctx)
	if err != nil {
		return nil, err
	}
	options := member.Options{Config: a.config, Sequence: sequence, Line: line, Ended: ended, Joined: a.word.joined, Now: clock.Boot, Ready: func(silo directory.Silo) {
		log.Printf("is ready")
		operation.Notify("READY=1\nSTATUS=" + string(silo))
	}}
	if a.config.KillApplications {
		started, err := guard.Start(a.config.Settings.TTL / 2)
		if err != nil {
			line.Close()
			return nil, err
		}
		options.Guard = started
	}
	m, err := member.Join(ctx, options)
	if err != nil {
		if options.Guard != nil {
			options.Guard.Done()
		}
		return nil, err
	}
	a.logger.Named(string(m.Silo()))
	log.Print("joined")
	return m, nil
}

// live lets a generation live until it is fenced, or until the agent is told to leave; whether it left.
func (a *agent) live(ctx context.Context, m *member.Member) (member.Outcome, bool) {
	a.set(m)
	defer a.set(nil)
	select {
	case <-m.Given():
		return m.End(""), ctx.Err() != nil
	case <-ctx.Done():
		operation.Notify("STOPPING=1")
		outcome := m.Leave(context.Background())
		log.Printf("has left in order: %v", outcome.Left)
		return outcome, true
	}
}

// awaitSocketFolder waits until the folder of the socket is there: who can't be reached doesn't join.
func (a *agent) awaitSocketFolder(ctx context.Context) error {
	folder := filepath.Dir(a.config.Socket)
	for complaint := (operation.Complaint{}); ; {
		info, err := os.Stat(folder)
		if err == nil && info.IsDir() {
			return nil
		}
		if complaint.IsDue(clock.Boot()) {
			log.Printf("error: the folder of --socket isn't there: %s; it is looked for again", folder)
			operation.Notify("STATUS=waits for the folder of its socket")
		}
		if pause(ctx, retry); ctx.Err() != nil {
			return ctx.Err()
		}
	}
}

// openLine connects the transport, as soon as that can be: who reaches nobody doesn't join.
func (a *agent) openLine(ctx context.Context) (transport.Line, error) {
	for complaint := (operation.Complaint{}); ; {
		line, err := a.tryLine()
		if err == nil {
			return line, nil
		}
		if complaint.IsDue(clock.Boot()) {
			log.Printf("warning: %v; tried again", err)
			operation.Notify("STATUS=waits for the transport")
		}
		if pause(ctx, retry); ctx.Err() != nil {
			return nil, ctx.Err()
		}
	}
}

func (a *agent) tryLine() (transport.Line, error) {
	if a.config.Settings.Transport == "tcp" {
		settings, err := a.config.TCPTLS.TLS()
		if err != nil {
			return nil, err
		}
		return tcpcarrier.Open(a.config.Endpoint, settings)
	}
	settings, err := a.config.NatsTLS.TLS()
	if err != nil {
		return nil, err
	}
	return natscarrier.Open(natscarrier.Options{Servers: a.config.Nats, TLS: settings, Credentials: a.config.NatsCredentials, Directory: a.config.Cluster,
		Changed: func(bool) {
			if m := a.now(); m != nil {
				m.TransportChanged()
			}
		}})
}

// watchdog tells the supervisor that the agent goes on. One that is frozen doesn't, and then the supervisor kills all of its unit.
func (a *agent) watchdog() {
	interval := operation.WatchdogInterval()
	if interval == 0 {
		return
	}
	for ; ; time.Sleep(interval) {
		if m := a.now(); m != nil {
			m.Health() // takes the locks, so that an agent that hangs says nothing
		}
		operation.Notify("WATCHDOG=1")
	}
}

func pause(ctx context.Context, wait time.Duration) {
	timer := time.NewTimer(wait)
	defer timer.Stop()
	select {
	case <-ctx.Done():
	case <-timer.C:
	}
}
