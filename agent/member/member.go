// Package member is one generation of a silo, from its join to its end: it ties the silo's process to the membership, the fence, the transport and
// the applications.
//
// Its order: the join is decided, with a random token; then the silo's process is started, told the view before that and all changes from its join
// on, and sees each view from there.
// Once its ranges are settled it is ready. At the end the fence is given up first, so that the silo is told nothing more; then applications are
// told, the process is killed, and applications hang up. Where all of them have, it declares itself dead, and nobody waits for its beat.
package member

import (
	"context"
	"crypto/rand"
	"encoding/hex"
	"fmt"
	"log"
	"net"
	"sync"
	"time"

	"agent/applications"
	"agent/clock"
	"agent/directory"
	"agent/fence"
	"agent/membership"
	"agent/metrics"
	"agent/operation"
	"agent/peers"
	"agent/silo"
	"agent/transport"
)

// Options are what a generation is made of.
type Options struct {
	Config   operation.Config
	Sequence *membership.Sequence
	Line     transport.Line                              // for letters; the member closes it
	Ended    func(old directory.Silo, token string) bool // whether an older generation, which joined by that token, has surely ended
	Joined   func(me directory.Silo, token string)       // told the join of this generation
	Guard    Guard
	Now      clock.Clock
	Ready    func(directory.Silo) // told when the silo's ranges were settled for the first time
}

// Guard ends what this agent can't end itself, where it is frozen.
type Guard interface {
	CanEnd(process int, began string) error
	Watch(process int, began string)
	Forget(process int)
	Until(until clock.Time)
	Failed() <-chan struct{}
	Done()
}

// Member is one generation of a silo.
type Member struct {
	options  Options
	me       directory.Silo
	joined   uint64
	fence    *fence.Fence
	silo     *silo.Silo
	post     *transport.Post
	silence  *peers.Silence
	service  *applications.Service
	listener *net.UnixListener
	ctx      context.Context // ends with this generation
	stop     context.CancelFunc
	work     sync.WaitGroup

	took map[string]*metrics.Histogram

	mu      sync.Mutex
	running *silo.Silo
	told    uint64
	settled uint64
	status  silo.Status
	skipped int64

	through map[directory.Silo]directory.Silo // of the members that this one is cut from: through whom letters go, or ""
	yields  bool                              // it is to end for one of them, where that lasts
	severed []directory.Silo                  // for whom it gave itself up

	names map[directory.Silo]string // of each silo's applications, as was told last
}

// Outcome is how a generation ended.
type Outcome struct {
	Silo   directory.Silo
	Reason string
	Ready  bool // its ranges were settled once
	Ended  bool // the silo's process has ended, and all applications have hung up
	Left   bool // it left in order

	Severed []directory.Silo // to whom no letters went, nor from them, so that it gave itself up
}

// Join joins a directory as the endpoint's next generation, and starts the silo. A fault leaves nothing behind.
func Join(ctx context.Context, options Options) (*Member, error) {
	token := make([]byte, 8)
	if _, err := rand.Read(token); err != nil {
		return nil, err
	}
	m := &Member{options: options, silence: peers.New(options.Now),
		names: map[directory.Silo]string{}, took: map[string]*metrics.Histogram{"activate": {}, "deactivate": {}, "find": {}}}
	m.ctx, m.stop = context.WithCancel(context.Background())
	var err error
	if m.listener, err = applications.Listen(options.Config.Socket, options.Config.SocketMode); err != nil {
		options.Line.Close()
		return nil, err
	}
	waits, complaint := "", operation.Complaint{}
	config := options.Config
	m.me, err = options.Sequence.Join(ctx, membership.JoinOptions{Endpoint: config.Endpoint, Token: hex.EncodeToString(token), Ended: options.Ended,
		Sent: func(sent clock.Time) { m.fence = fence.New(config.Settings.TTL, sent, options.Now) },
		Waits: func(why string, left time.Duration) {
			if waits != why {
				waits, complaint = why, operation.Complaint{}
			}
			if complaint.IsDue(options.Now()) {
				log.Printf("waits up to %v for %s", left.Round(time.Millisecond), why)
			}
		}})
	if err != nil {
		m.listener.Close()
		options.Line.Close()
		return nil, err
	}
	if options.Joined != nil {
		options.Joined(m.me, hex.EncodeToString(token))
	}
	if err := m.start(hex.EncodeToString(token)); err != nil {
		m.End(err.Error())
		return nil, err
	}
	return m, nil
}

// start starts what works for the silo. It has joined.
func (m *Member) start(token string) error {
	config := m.options.Config
	m.service = applications.New(applications.Options{Silo: (*late)(m), May: m.fence.May, Until: m.fence.Until, Now: m.options.Now, Another: m.another,
		Status: m.statusLine, Members: m.membersLine, Took: m.noteTook, Admits: m.admits, Connected: m.watch, Disconnected: m.forget})
	m.post = transport.New(m.me, m.fence.May, (*letters)(m))
	later := newDeadlines()
	m.run(func() { later.run(m.ctx, m.service.Deadline) })
	m.fence.OnExtended(func(until clock.Time) {
		later.set(until)
		m.guardUntil(until) // which doesn't wait
	})
	m.run(func() {
		m.fence.Keep(m.ctx, func(ctx context.Context) error { return m.options.Sequence.Beat(ctx, m.me) })
	})
	carrier, err := m.options.Line.Carry(m.me, m.post.Take)
	if err != nil {
		return err
	}
	m.post.Carry(carrier)
	if m.silo, err = silo.Start(silo.Options{Program: config.Program, Silo: m.me, Settings: config.Settings, Most: config.Activations, Token: token,
		May: m.fence.May},
		(*lines)(m)); err != nil {
		return err
	}
	m.mu.Lock()
	m.running = m.silo
	m.mu.Unlock()
	m.guardUntil(m.fence.Until()) // before there is anything that it may have to end
	m.watch(m.silo.Process(), applications.Began(m.silo.Process()))
	m.run(m.watchProcesses)
	m.run(m.feed)
	m.run(m.settle)
	m.run(m.report)
	m.run(m.bury)
	if config.Settings.Version >= directory.Compacted {
		m.run(m.compact)
	}
	return nil
}

// watchProcesses gives the silo up when its process ends, or its guard.
func (m *Member) watchProcesses() {
	var guard <-chan struct{}
	if m.options.Guard != nil {
		guard = m.options.Guard.Failed()
	}
	select {
	case <-m.silo.Ended():
		if m.fence.May() { // else the deadline ended it, by the end of its input
			m.fence.Give("the silo's process has ended")
		}
	case <-guard:
		m.fence.Give("the guard of the applications has ended, or stands still")
	case <-m.ctx.Done():
	}
}

func (m *Member) run(what func()) {
	m.work.Add(1)
	go func() {
		defer m.work.Done()
		what()
	}()
}

// watch has the guard, if there is one, watch a process that works for activations.
func (m *Member) watch(process int, began string) {
	if m.options.Guard != nil {
		m.options.Guard.Watch(process, began)
	}
}

// admits says why an application may not connect: there is a guard, which couldn't end it.
func (m *Member) admits(process int, began string) error {
	if m.options.Guard == nil {
		return nil
	}
	return m.options.Guard.CanEnd(process, began)
}

func (m *Member) forget(process int) {
	if m.options.Guard != nil {
		m.options.Guard.Forget(process)
	}
}

// guardUntil tells the guard a later deadline: half of the margin behind that of applications, so that they may end by themselves.
func (m *Member) guardUntil(until clock.Time) {
	if m.options.Guard != nil {
		m.options.Guard.Until(until.Add(fence.Margin(m.options.Config.Settings.TTL) / 2))
	}
}

// process is the silo's process, nil before it is there.
func (m *Member) process() *silo.Silo {
	m.mu.Lock()
	defer m.mu.Unlock()
	return m.running
}

// Silo is this generation.
func (m *Member) Silo() directory.Silo { return m.me }

// Given is closed once the silo was given up: End it.
func (m *Member) Given() <-chan struct{} { return m.fence.Given() }

// begin tells the silo the view before its join, in place of all changes up to that; whether it goes on. Version 0 needn't be told.
func (m *Member) begin() bool {
	version, rows := m.options.Sequence.Before(m.me)
	if version == 0 {
		return true
	}
	err := m.silo.Begin(version, rows, func(err error) {
		if err != nil {
			m.fence.Give(err.Error())
		}
	})
	if err != nil {
		m.fence.Give("the silo can't be told a view: " + err.Error())
		return false
	}
	m.mu.Lock()
	m.told = version
	m.mu.Unlock()
	return true
}

// feed tells the silo the view before its join and then all changes in order, and has it see each view from its join on: who skips one can hand
// nothing over.
func (m *Member) feed() {
	if !m.begin() {
		return
	}
	for m.ctx.Err() == nil {
		moved := m.options.Sequence.Moved()
		if err := m.options.Sequence.Fault(); err != nil {
			m.fence.Give(err.Error())
			return
		}
		m.mu.Lock()
		told := m.told
		m.mu.Unlock()
		for _, change := range m.options.Sequence.Changes(told) {
			if !m.tell(change) {
				return
			}
		}
		select {
		case <-moved:
		case <-m.ctx.Done():
		}
	}
}

// tell tells the silo a change; whether it goes on.
func (m *Member) tell(change directory.Change) bool {
	endpoint, generation := change.Silo.Split()
	mine, my := m.me.Split()
	if change.Kind == directory.Dead && change.Silo == m.me || change.Kind == directory.Joined && endpoint == mine && generation > my {
		m.fence.Give("this silo was declared dead, or replaced")
		return false
	}
	err := m.silo.Tell(change, func(err error) {
		if err != nil {
			m.fence.Give(err.Error())
		}
	})
	m.mu.Lock()
	m.told = change.Version
	if change.Kind == directory.Joined && change.Silo == m.me {
		m.joined = change.Version
	}
	joined := m.joined
	m.mu.Unlock()
	if err == nil && joined > 0 {
		err = m.silo.See(change.Version, func(skipped bool, err error) {
			if err != nil {
				m.fence.Give(err.Error())
			} else if change.Version == joined {
				go m.service.Serve(m.listener) // before, the silo would refuse all that they ask
			} else if skipped {
				m.mu.Lock()
				m.skipped++
				m.mu.Unlock()
			}
		})
		m.service.Changed(change)
	}
	if err != nil {
		m.fence.Give("the silo can't be told a change: " + err.Error())
		return false
	}
	return true
}

// settle looks at the silo's status, nudges it when it is to be, and gives it up when it says nothing.
func (m *Member) settle() {
	statuses := make(chan silo.Status, 1)
	swept := m.options.Now()
	for m.ctx.Err() == nil {
		if m.silo.Status(func(status silo.Status) { statuses <- status }) != nil {
			m.fence.Give("the silo's process is too slow")
			return
		}
		status, isThere := m.await(statuses)
		if !isThere {
			return
		}
		m.look(status)
		if now := m.options.Now(); now.Sub(swept) > time.Second {
			swept = now
			m.service.Sweep()
		}
		sleep(m.ctx, m.silo.Look())
	}
}

// await waits for the silo's status, and gives it up where its process writes nothing for too long. Any line counts: one with much to do may be
// long in coming to the question.
func (m *Member) await(statuses chan silo.Status) (silo.Status, bool) {
	asked, most := m.options.Now(), m.options.Config.SiloTimeout
	ticks := time.NewTicker(most / 20)
	defer ticks.Stop()
	for {
		select {
		case status := <-statuses:
			return status, true
		case <-m.ctx.Done():
			return silo.Status{}, false
		case <-ticks.C:
			since := m.silo.Wrote()
			if asked > since {
				since = asked
			}
			if m.options.Now().Sub(since) > most {
				m.fence.Give(fmt.Sprintf("the silo's process wrote nothing for %v", most))
				return silo.Status{}, false
			}
		}
	}
}

// look takes the silo's status.
func (m *Member) look(status silo.Status) {
	m.mu.Lock()
	m.status = status
	isSettled := status.Unsettled == 0 && status.Seen == status.Known && status.Seen > m.settled
	isFirst := isSettled && m.settled == 0
	if isSettled {
		m.settled = status.Seen
	}
	m.mu.Unlock()
	if isSettled {
		log.Printf("settled version %d", status.Seen)
		m.service.Settled(status.Seen)
	}
	if isFirst && m.options.Ready != nil {
		m.options.Ready(m.me)
	}
	if m.fence.May() {
		m.silo.Nudge(status)
	}
}

func (m *Member) noteTook(what string, took time.Duration) { m.took[what].Took(took) }

func sleep(ctx context.Context, wait time.Duration) {
	timer := time.NewTimer(wait)
	defer timer.Stop()
	select {
	case <-ctx.Done():
	case <-timer.C:
	}
}
