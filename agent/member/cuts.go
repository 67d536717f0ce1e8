package member

import (
	"fmt"
	"log"
	"sort"
	"strings"
	"time"

	"agent/clock"
	"agent/directory"
	"agent/operation"
	"agent/peers"
	"agent/transport"
)

// greeting is how often those who don't hear one another try to.
const greeting = 500 * time.Millisecond

// cuts are the members that this silo is cut from, of the two of which one doesn't hear the other.
type cuts struct {
	severed   peers.Severed
	greeted   clock.Time
	said      string
	complaint operation.Complaint
}

// hears takes what all report, has letters between members that don't hear one another go through a third, and tells of those that this silo is cut
// from. Where there is no third for long, one of the two gives itself up, so that the other goes on. Who doesn't beat is dead, or soon will be.
func (m *Member) hears(c *cuts, members []directory.Silo, reports map[directory.Silo]peers.Report) {
	now := m.options.Now()
	var beating []directory.Silo
	for _, silo := range members {
		if now.Sub(m.options.Sequence.BeatSeen(silo)) < m.options.Config.Settings.TTL/2 {
			beating = append(beating, silo)
		}
	}
	deaf := peers.DeafOf(beating, reports)
	through := deaf.CutFrom(m.me, beating)
	routes := transport.Routes{Through: map[directory.Silo]directory.Silo{}, IsCut: deaf.IsCut}
	for silo, by := range through {
		if by != "" {
			routes.Through[silo] = by
		}
	}
	m.post.Route(routes)
	if now.Sub(c.greeted) > greeting {
		c.greeted = now
		for silo := range through {
			m.post.Hello(silo)
		}
	}
	m.mu.Lock()
	m.through, m.yields = through, yields(deaf, m.me, through, beating)
	m.mu.Unlock()
	c.tell(cutText(through), now)
	for _, silo := range c.severed.Note(through, now, m.options.Config.DeafAfter) {
		if deaf.Yields(m.me, silo, beating) {
			m.mu.Lock()
			m.severed = append(m.severed, silo)
			m.mu.Unlock()
			m.fence.Give(fmt.Sprintf("%s and this silo haven't heard one another for %v, and no third hears both: the other goes on", silo,
				m.options.Config.DeafAfter))
		}
	}
}

// tell logs whom this silo is cut from: where that changes, and again every half minute.
func (c *cuts) tell(text string, now clock.Time) {
	if text != c.said {
		c.said, c.complaint = text, operation.Complaint{}
		if text == "" {
			log.Print("all members and this silo hear one another again")
		}
	}
	if text != "" && c.complaint.IsDue(now) {
		log.Printf("warning: members and this silo don't hear one another: %s", text)
	}
}

// Cuts says which members this silo is cut from, and whether letters go between the two; "" where there is none.
func (m *Member) Cuts() string {
	m.mu.Lock()
	defer m.mu.Unlock()
	return cutText(m.through)
}

// yields says whether there is a member to which no letters go, and which is to go on if one of the two is.
func yields(deaf peers.Deaf, me directory.Silo, through map[directory.Silo]directory.Silo, members []directory.Silo) bool {
	for silo, by := range through {
		if by == "" && deaf.Yields(me, silo, members) {
			return true
		}
	}
	return false
}

func cutText(through map[directory.Silo]directory.Silo) string {
	var words []string
	for _, silo := range sortedSilos(through) {
		if by := through[silo]; by != "" {
			words = append(words, fmt.Sprintf("letters to %s go through %s", silo, by))
		} else {
			words = append(words, fmt.Sprintf("no letters go to %s", silo))
		}
	}
	return strings.Join(words, ", ")
}

func sortedSilos(through map[directory.Silo]directory.Silo) (silos []directory.Silo) {
	for silo := range through {
		silos = append(silos, silo)
	}
	sort.Slice(silos, func(i, j int) bool { return silos[i] < silos[j] })
	return silos
}
