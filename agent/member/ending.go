package member

import (
	"context"
	"fmt"
	"log"
	"time"

	"agent/directory"
	"agent/fence"
	"agent/peers"
	"agent/planted"
)

// End ends the silo and all its activations, for a reason.
func (m *Member) End(reason string) Outcome {
	m.fence.Give(reason) // from here on the silo is told nothing
	reason = m.fence.Reason()
	if planted.SlowEnd {
		time.Sleep(m.options.Config.Settings.TTL)
	}
	m.listener.Close()
	if m.service != nil {
		m.service.Lost(reason)
	}
	if m.silo != nil {
		m.silo.Kill()
	}
	log.Printf("ends: %s", reason) // not before: a log that is stuck must not hold the end up
	m.mu.Lock()
	wasReady, severed := m.settled != 0, m.severed
	m.mu.Unlock()
	haveHungUp := m.awaitApplications()
	log.Printf("the silo's process has ended; all applications have hung up: %v", haveHungUp)
	outcome := Outcome{Silo: m.me, Reason: reason, Ready: wasReady, Severed: severed,
		Ended: haveHungUp && m.options.Sequence.Owns(m.me)} // a copy's may go on
	if outcome.Ended {
		ctx, done := context.WithTimeout(context.Background(), 2*time.Second)
		if err := m.options.Sequence.Die(ctx, m.me); err != nil {
			log.Printf("warning: the others have to wait for this silo's end: %v", err)
		}
		done()
	}
	m.stop()
	m.work.Wait()
	if m.post != nil {
		m.post.Close()
	}
	m.options.Line.Close()
	if m.options.Guard != nil {
		m.options.Guard.Done()
	}
	return outcome
}

// awaitApplications waits until the applications have hung up. In half of what the deadline has left to others' waiting it kills them, if it may.
func (m *Member) awaitApplications() bool {
	if m.service == nil {
		return true
	}
	ttl := m.options.Config.Settings.TTL
	last := m.fence.Until().Add(fence.Margin(ttl) / 2)
	if now := m.options.Now(); now.Add(ttl) < last {
		last = now.Add(ttl)
	}
	if m.service.AwaitHangUp(last) {
		return true
	}
	if !m.options.Config.KillApplications {
		return false
	}
	m.service.Kill()
	return m.service.AwaitHangUp(m.options.Now().Add(time.Second))
}

// Leave goes in peace: no ranges, then no activations, then no silo. ctx ends the waiting.
func (m *Member) Leave(ctx context.Context) Outcome {
	log.Print("leaves")
	m.service.Leave()
	deciding, done := context.WithTimeout(ctx, m.options.Config.LeaveTimeout)
	err := m.options.Sequence.Leave(deciding, m.me)
	done()
	if err != nil {
		log.Printf("warning: %v", err)
	}
	m.wait(ctx, "its activations to end", m.options.Config.LeaveTimeout, func() bool { return m.service.Held() == 0 })
	m.wait(ctx, "its leaving to be known", m.options.Config.LeaveTimeout, func() bool { return m.options.Sequence.Status(m.me) != directory.IsActive })
	left := m.options.Sequence.Version()
	m.wait(ctx, "the others to have its ranges", m.options.Config.LeaveTimeout, func() bool { return m.haveSettled(left) })
	select {
	case <-m.fence.Given():
		return m.End("")
	default:
	}
	outcome := m.End("it leaves")
	outcome.Left = outcome.Ended
	return outcome
}

// haveSettled says whether all other active silos have seen and settled a version, so that nothing of this one is wanted any more.
func (m *Member) haveSettled(version uint64) bool {
	settled := true
	m.options.Sequence.Look(func(views *directory.Views, statuses map[directory.Silo]string) {
		for _, silo := range views.Members() {
			if silo != m.me && views.Status(silo) == directory.IsActive {
				report := peers.ReadReport(statuses[silo])
				settled = settled && report.Seen >= version && report.Settled >= version
			}
		}
	})
	return settled
}

// wait waits until something is so, for as long as it may take, or until the silo is fenced.
func (m *Member) wait(ctx context.Context, what string, most time.Duration, isSo func() bool) {
	waiting, done := context.WithTimeout(ctx, most)
	defer done()
	for !isSo() {
		select {
		case <-m.fence.Given():
			return
		case <-waiting.Done():
			log.Printf("warning: waited %v in vain for %s", most, what)
			return
		case <-time.After(20 * time.Millisecond):
		}
	}
}

// Health says what is wrong with this silo, or nil.
func (m *Member) Health() error {
	m.mu.Lock()
	settled, told, through, yields := m.settled, m.told, m.through, m.yields
	m.mu.Unlock()
	switch {
	case !m.fence.May():
		return fmt.Errorf("fenced: %s", m.fence.Reason())
	case !m.post.Up():
		return fmt.Errorf("the transport is lost")
	case settled < told:
		return fmt.Errorf("settled version %d of %d", settled, told)
	case yields:
		return fmt.Errorf("%s", cutText(through))
	}
	return nil
}
