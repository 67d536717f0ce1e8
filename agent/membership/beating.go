package membership

import (
	"context"
	"crypto/rand"
	"encoding/hex"
	"errors"
	"fmt"
	"log"

	"agent/beats"
	"agent/directory"
)

// Beat writes the next beat of a silo that joined by this sequence, on top of the last. Its fault is beats.Ended once there is no such: the silo was
// declared dead, replaced or voted out; another agent beats for it; or the store was turned back.
func (s *Sequence) Beat(ctx context.Context, silo directory.Silo) error {
	s.beating.Lock()
	defer s.beating.Unlock()
	chain := s.chain(silo)
	defer func() { s.begin(silo, chain) }()
	for tries := 0; tries < 3; tries++ {
		if chain.Last != (beats.Beat{}) {
			value := nonce()
			last := chain.Last
			chain = chain.Sent(value)
			s.begin(silo, chain) // whatever comes of it
			made, at, err := s.commit(ctx, Transaction{If: []Condition{stands(silo, last)}, Put: []Entry{{Key: beatKey(silo), Value: value}}})
			if err != nil {
				return err
			}
			if made {
				chain = chain.Made(beats.Beat{Revision: int64(at), Value: value})
				return nil
			}
		}
		var err error
		if chain, err = s.look(ctx, silo, chain); err != nil {
			return err
		}
	}
	return errors.New("it was refused three times, though the one before stands in the store")
}

// look reads a silo's beat, and goes on from it. Where it is no more this agent's, all is read again, before the next generation joins.
func (s *Sequence) look(ctx context.Context, silo directory.Silo, chain beats.Chain) (beats.Chain, error) {
	entries, _, err := s.readAt(ctx, beatKey(silo))
	if err != nil {
		return chain, err
	}
	var beat beats.Beat
	for _, entry := range entries {
		if entry.Key == beatKey(silo) {
			beat = beatOf(entry)
		}
	}
	chain, verdict := chain.Saw(beat)
	if verdict == beats.Mine {
		return chain, nil
	}
	if verdict == beats.TurnedBack {
		s.mu.Lock()
		s.hurt("%s wrote a beat at revision %d, and there is one of revision %d", silo, chain.Last.Revision, beat.Revision)
		s.mu.Unlock()
	}
	s.Reread()
	return chain, beats.Ended{Verdict: verdict}
}

func (s *Sequence) chain(silo directory.Silo) beats.Chain {
	s.mu.Lock()
	defer s.mu.Unlock()
	return s.chains[silo]
}

// nonce is a value that no other beat has.
func nonce() string {
	bytes := make([]byte, 8)
	if _, err := rand.Read(bytes); err != nil {
		panic(err) // Linux has them
	}
	return hex.EncodeToString(bytes)
}

// Owns says whether a silo is this agent's alone: no copy of the agent beats for it, by all that is known.
func (s *Sequence) Owns(silo directory.Silo) bool {
	lost := s.chain(silo).Lost
	return lost == beats.Mine || lost == beats.Gone
}

// Die declares a silo dead that has surely ended, by the word of its own agent: its last beat is this agent's, or is gone.
func (s *Sequence) Die(ctx context.Context, silo directory.Silo) error {
	s.beating.Lock()
	defer s.beating.Unlock()
	for {
		moved := s.Moved()
		s.mu.Lock()
		change := directory.Change{Version: s.views.Version() + 1, Kind: directory.Dead, Silo: silo}
		chain, isMember, err := s.chains[silo], s.views.IsMember(silo), s.fault
		s.mu.Unlock()
		if !isMember || err != nil {
			return err
		}
		chain, err = s.look(ctx, silo, chain)
		s.begin(silo, chain)
		made := false
		switch beat := chain.Last; chain.Lost {
		case beats.Gone:
			beat, err = beats.Beat{}, nil
			fallthrough
		case beats.Mine:
			if err == nil {
				made, _, err = s.propose(ctx, change, Transaction{If: []Condition{stands(silo, beat)}, Delete: []string{beatKey(silo), statusKey(silo)}})
			}
		default:
			return fmt.Errorf("%v isn't declared: %w", change, err)
		}
		if made {
			return nil
		}
		if ctx.Err() != nil {
			return fmt.Errorf("%v wasn't decided: %w", change, ctx.Err())
		}
		if err != nil {
			log.Printf("warning: %v isn't confirmed: %v", change, err)
		} else {
			s.testNews()
		}
		s.wait(ctx, moved, s.timing.Retry)
	}
}
