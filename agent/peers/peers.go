// Package peers notes which silos don't answer. A silo may beat and yet answer nobody: its network is cut in part. Then its ranges stay with it,
// and each recovery waits for its report, for ever. So each agent says in its status whom it doesn't hear, and whom more than half of all members
// don't hear has its beat ended by one of them.
package peers

import (
	"sort"
	"strings"
	"sync"
	"time"

	"agent/clock"
	"agent/directory"
)

// Silence is since when each silo has left the questions of this one unanswered.
type Silence struct {
	now   clock.Clock
	mu    sync.Mutex
	since map[directory.Silo]clock.Time
}

// New has heard of no silence.
func New(now clock.Clock) *Silence {
	return &Silence{now: now, since: map[directory.Silo]clock.Time{}}
}

// Asked notes that a letter went to a silo that is answered, if it is one.
func (s *Silence) Asked(to directory.Silo, kind string) {
	switch kind {
	case "register", "deregister", "find", "ask", "query", "survey":
		s.mu.Lock()
		defer s.mu.Unlock()
		if _, isAsked := s.since[to]; !isAsked {
			s.since[to] = s.now()
		}
	}
}

// Heard notes that some letter came from a silo.
func (s *Silence) Heard(from directory.Silo) {
	s.mu.Lock()
	defer s.mu.Unlock()
	delete(s.since, from)
}

// Forget begins anew: the transport was lost, or is back.
func (s *Silence) Forget() {
	s.mu.Lock()
	defer s.mu.Unlock()
	s.since = map[directory.Silo]clock.Time{}
}

// Since is since when a silo has left questions unanswered, if it has.
func (s *Silence) Since(silo directory.Silo) (since clock.Time, isSilent bool) {
	s.mu.Lock()
	defer s.mu.Unlock()
	since, isSilent = s.since[silo]
	return since, isSilent
}

// Beats says whether a silo that has been silent since then has beaten well after that. One that hasn't may be dead, and is waited for already: to end
// its beat would have that waiting begin anew. A beat comes each tenth of a TTL, and may be seen late by as much.
func Beats(silent, seen clock.Time, ttl time.Duration) bool { return seen.Sub(silent) > ttl/10 }

// Suspects are the members that have been silent for so long. Who hears nothing from half of the members or more suspects nobody: itself or the
// transport is at fault, and an outage of that must not end everybody.
func (s *Silence) Suspects(long time.Duration, members []directory.Silo) (silent []directory.Silo) {
	s.mu.Lock()
	defer s.mu.Unlock()
	silent = s.silent(long, members)
	if 2*len(silent) >= len(members) {
		return nil
	}
	return silent
}

// Silent are all members that have been silent for so long, by their texts.
func (s *Silence) Silent(long time.Duration, members []directory.Silo) []directory.Silo {
	s.mu.Lock()
	defer s.mu.Unlock()
	return s.silent(long, members)
}

func (s *Silence) silent(long time.Duration, members []directory.Silo) (silent []directory.Silo) {
	isMember := map[directory.Silo]bool{}
	for _, silo := range members {
		isMember[silo] = true
	}
	for silo, since := range s.since {
		if !isMember[silo] {
			delete(s.since, silo)
		} else if s.now().Sub(since) > long {
			silent = append(silent, silo)
		}
	}
	sort.Slice(silent, func(i, j int) bool { return silent[i] < silent[j] })
	return silent
}

// VotedOut is a member that more than half of all members don't hear, by the suspicions of those members that have one; "" if there is none.
func VotedOut(members []directory.Silo, suspicions map[directory.Silo][]directory.Silo) directory.Silo {
	votes := map[directory.Silo]int{}
	for _, by := range members {
		for _, silo := range suspicions[by] {
			if silo != by {
				votes[silo]++
			}
		}
	}
	var out directory.Silo
	for _, silo := range members {
		if 2*votes[silo] > len(members) && (out == "" || silo < out) {
			out = silo
		}
	}
	return out
}

// Report is what an agent tells the others by its status.
type Report struct {
	Seen, Settled uint64 // the versions that its silo has seen, and at which all its ranges were settled
	Up            bool   // whether its transport is connected
	Suspects      []directory.Silo
	Deaf          []directory.Silo // whom it doesn't hear, the suspects among them or not
	Names         []string         // of its applications, as they call themselves
}

// deafTo stands in front of whom a silo doesn't hear. An older agent takes that for a suspect that is no member.
const deafTo = "~"

// Text is a report as it stands in the store.
func (r Report) Text() string {
	up := "down"
	if r.Up {
		up = "up"
	}
	words := []string{decimal(r.Seen), decimal(r.Settled), up}
	for _, silo := range r.Suspects {
		words = append(words, string(silo))
	}
	for _, silo := range r.Deaf {
		words = append(words, deafTo+string(silo))
	}
	if len(r.Names) > 0 {
		words = append(words, "="+strings.Join(r.Names, ","))
	}
	return strings.Join(words, " ")
}

// ReadReport reads a report; what can't be read says nothing.
func ReadReport(text string) (r Report) {
	words := strings.Fields(text)
	if len(words) < 3 {
		return r
	}
	r.Seen, r.Settled, r.Up = number(words[0]), number(words[1]), words[2] == "up"
	for _, word := range words[3:] {
		switch {
		case strings.HasPrefix(word, "="):
			r.Names = strings.Split(word[1:], ",")
		case strings.HasPrefix(word, deafTo):
			r.Deaf = append(r.Deaf, directory.Silo(word[len(deafTo):]))
		default:
			r.Suspects = append(r.Suspects, directory.Silo(word))
		}
	}
	return r
}
