package member

import (
	"log"
	"time"

	"agent/clock"
	"agent/directory"
	"agent/fence"
	"agent/peers"
)

// bury declares those dead whose beats stand still. Everybody may; one of them comes first.
func (m *Member) bury() {
	for ; m.ctx.Err() == nil; sleep(m.ctx, 20*time.Millisecond) {
		if !m.fence.May() {
			continue
		}
		dead, err := m.options.Sequence.Bury(m.ctx, m.me)
		if err != nil && m.ctx.Err() == nil {
			log.Printf("warning: a death isn't confirmed: %v", err)
			sleep(m.ctx, 200*time.Millisecond)
		} else if dead != "" {
			log.Printf("declared %s dead", dead)
		}
	}
}

// report tells the others what this silo has seen and settled, and whom it doesn't hear, and votes.
func (m *Member) report() {
	said := ""
	cuts := cuts{severed: peers.Severed{}}
	connected, reread := m.options.Now(), m.options.Now()
	for ; m.ctx.Err() == nil; sleep(m.ctx, 50*time.Millisecond) {
		reread = m.testWatch(reread)
		members, reports := m.members()
		report := peers.Report{Up: m.post.Up()}
		m.mu.Lock()
		report.Seen, report.Settled = m.status.Seen, m.settled
		m.mu.Unlock()
		report.Names = m.service.Names()
		if report.Up {
			report.Suspects = m.silence.Suspects(m.options.Config.SilentAfter, members)
			report.Deaf = m.silence.Silent(m.options.Config.SilentAfter, members)
		}
		if text := report.Text(); text != said && m.options.Sequence.Report(m.ctx, m.me, text) == nil {
			said = text
		}
		if now := m.options.Now(); report.Up || !m.isUpElsewhere(reports) {
			connected = now
		} else if now.Sub(connected) > m.options.Config.TransportTimeout {
			m.fence.Give("the transport can't be reached from here, but from elsewhere")
			return
		}
		reports[m.me] = report
		m.hears(&cuts, members, reports)
		m.vote(members, reports)
		m.tellNames(members, reports)
	}
}

// testWatch has everything read again where this silo's own beats don't come by the watch, and answers when it last did.
func (m *Member) testWatch(last clock.Time) clock.Time {
	patience, now := m.options.Config.Settings.TTL/2, m.options.Now()
	confirmed := m.fence.Until().Add(-(m.options.Config.Settings.TTL - fence.Margin(m.options.Config.Settings.TTL))) // when the last was sent
	if seen := m.options.Sequence.BeatSeen(m.me); confirmed.Sub(seen) > patience && now.Sub(last) > patience {
		log.Printf("warning: the watch of the store tells nothing: all is read again")
		m.options.Sequence.Reread()
		return now
	}
	return last
}

// members are those that have a beat, and what they report.
func (m *Member) members() (members []directory.Silo, reports map[directory.Silo]peers.Report) {
	reports = map[directory.Silo]peers.Report{}
	m.options.Sequence.Look(func(views *directory.Views, statuses map[directory.Silo]string) {
		members = views.Members()
		for _, silo := range members {
			if text, isThere := statuses[silo]; isThere {
				reports[silo] = peers.ReadReport(text)
			}
		}
	})
	return members, reports
}

func (m *Member) isUpElsewhere(reports map[directory.Silo]peers.Report) bool {
	for silo, report := range reports {
		if silo != m.me && report.Up {
			return true
		}
	}
	return false
}

// vote ends the beat of a member that most don't hear, this one among them, though it beats on.
func (m *Member) vote(members []directory.Silo, reports map[directory.Silo]peers.Report) {
	suspicions := map[directory.Silo][]directory.Silo{}
	for silo, report := range reports {
		if m.options.Sequence.HasBeat(silo) {
			suspicions[silo] = report.Suspects
		}
	}
	out := peers.VotedOut(members, suspicions)
	since, isSilent := m.silence.Since(out)
	if out == "" || !m.fence.May() || !isSilent || !peers.Beats(since, m.options.Sequence.BeatSeen(out), m.options.Config.Settings.TTL) {
		return
	}
	if err := m.options.Sequence.VoteOut(m.ctx, out); err != nil {
		log.Printf("warning: %s isn't voted out: %v", out, err)
	} else {
		log.Printf("warning: %s answers most members no more, and is voted out", out)
	}
}
