package membership

import (
	"context"
	"fmt"

	"agent/beats"
)

// hurt notes why the directory can't go on: its store forgot or changed what was decided. mu is held.
func (s *Sequence) hurt(format string, words ...interface{}) {
	if s.fault == nil {
		s.fault = fmt.Errorf(format+": the store was wiped or rewritten, or an older state of it was restored; stop all agents of this directory, "+
			"and begin another, by another --cluster", words...)
		s.announce()
	}
}

// Fault is why the directory can't go on, or nil.
func (s *Sequence) Fault() error {
	s.mu.Lock()
	defer s.mu.Unlock()
	return s.fault
}

// readAt and commit are the store's calls. The revisions of calls that come one after the other never fall: else the store was turned back.
func (s *Sequence) readAt(ctx context.Context, prefix string) ([]Entry, Revision, error) {
	floor := s.floor()
	entries, at, err := s.store.Read(ctx, prefix)
	if err == nil {
		err = s.answered(floor, at)
	}
	return entries, at, err
}

func (s *Sequence) commit(ctx context.Context, transaction Transaction) (bool, Revision, error) {
	floor := s.floor()
	made, at, err := s.store.Commit(ctx, transaction)
	if err == nil {
		err = s.answered(floor, at)
	}
	return made, at, err
}

// floor is the highest revision that was answered so far.
func (s *Sequence) floor() Revision {
	s.mu.Lock()
	defer s.mu.Unlock()
	return s.highest
}

func (s *Sequence) answered(floor, at Revision) error {
	s.mu.Lock()
	defer s.mu.Unlock()
	if at < floor {
		s.hurt("the store answers at revision %d, and had answered at %d", at, floor)
		return beats.Ended{Verdict: beats.TurnedBack}
	}
	if at > s.highest {
		s.highest = at
	}
	return nil
}
