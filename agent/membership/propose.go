package membership

import (
	"context"
	"fmt"
	"log"
	"time"

	"agent/beats"
	"agent/clock"
	"agent/directory"
	"agent/planted"
)

// propose makes a change on top of the last one that this agent has read, if that still stands in the store as it was read, and what has to be so is
// so. It says at which revision it did.
func (s *Sequence) propose(ctx context.Context, change directory.Change, also Transaction) (bool, Revision, error) {
	s.mu.Lock()
	last := s.last
	s.mu.Unlock()
	transaction := also
	transaction.If = append(transaction.If, Condition{Key: changeKey(change.Version), Revision: Absent})
	if change.Version > 1 {
		if last.Key != changeKey(change.Version-1) {
			return false, 0, nil // more was read meanwhile
		}
		transaction.If = append(transaction.If, Condition{last.Key, last.Revision, last.Value})
	}
	transaction.Put = append(transaction.Put, Entry{Key: changeKey(change.Version), Value: changeText(change)})
	if planted.NoTransaction {
		transaction.If = nil
	}
	calling, done := s.call(ctx)
	defer done()
	return s.commit(calling, transaction)
}

// patience is for how long a beat may stand still.
func (s *Sequence) patience() time.Duration { return s.timing.TTL + s.timing.LockDelay }

// Bury declares one member dead whose beat has stood still for too long, be it that it is gone, if there is one, and says which. Who does so is a
// member, whose own beat has to stand in the store as it was written last: one whose beats were turned back declares nobody dead.
func (s *Sequence) Bury(ctx context.Context, by directory.Silo) (directory.Silo, error) {
	s.mu.Lock()
	var dead directory.Silo
	var seen beats.Beat
	for _, silo := range s.views.Members() {
		if state, isKnown := s.beats[silo]; isKnown && state.IsOverdue(s.now(), s.patience()) && silo != by && s.caughtUp {
			dead, seen = silo, state.Beat
		}
	}
	change := directory.Change{Version: s.views.Version() + 1, Kind: directory.Dead, Silo: dead}
	conditions := []Condition{stands(dead, seen)}
	if own := s.chains[by].Last; own != (beats.Beat{}) {
		conditions = append(conditions, stands(by, own))
	}
	s.mu.Unlock()
	if dead == "" {
		return "", nil
	}
	made, _, err := s.propose(ctx, change, Transaction{If: conditions, Delete: []string{beatKey(dead), statusKey(dead)}})
	if err != nil || !made {
		return "", err
	}
	return dead, nil
}

// stands wants a silo's beat as it was seen, be it that there was none.
func stands(silo directory.Silo, beat beats.Beat) Condition {
	return Condition{beatKey(silo), Revision(beat.Revision), beat.Value}
}

// JoinOptions are how a silo joins.
type JoinOptions struct {
	Endpoint string
	Token    string                                      // random: by it the agent knows the join for its own
	Ended    func(old directory.Silo, token string) bool // whether the older generation, which joined by that token, and all its work have surely ended
	Sent     func(clock.Time)                            // told when the join, and the beat with it, was sent that was decided
	Waits    func(why string, still time.Duration)       // told why it waits, and for how long at most
}

// Join makes this endpoint's next generation a member, and says which silo that is. An older generation is fenced first, as by a death.
func (s *Sequence) Join(ctx context.Context, options JoinOptions) (directory.Silo, error) {
	var sent clock.Time // of the first try that may have been carried out
	isUnsure := false
	for ctx.Err() == nil {
		moved := s.Moved()
		if err := s.Fault(); err != nil {
			return "", err
		}
		attempt := s.attempt(options)
		switch {
		case attempt.err != nil:
			return "", attempt.err
		case attempt.isMine: // decided, though the store's answer was lost
			s.begin(attempt.change.Silo, beats.Begin(options.Token))
			s.refresh(ctx, attempt.change.Silo, &sent)
			options.Sent(sent)
			return attempt.change.Silo, nil
		case attempt.waits != "" && options.Waits != nil:
			options.Waits(attempt.waits, attempt.left)
		case attempt.isReady && attempt.waits == "":
			now := s.now()
			made, at, err := s.propose(ctx, attempt.change, attempt.transaction)
			switch {
			case made: // by this try, since by an earlier one it would have been refused
				options.Sent(now)
				s.begin(attempt.change.Silo, beats.Begin(options.Token).Made(beats.Beat{Revision: int64(at), Value: options.Token}))
				s.await(ctx, attempt.change.Version)
				return attempt.change.Silo, nil
			case err == nil: // refused: there is news, be it that an earlier try was carried out
				s.testNews()
			case !isUnsure:
				sent, isUnsure = now, true
				fallthrough
			default:
				log.Printf("warning: the join isn't confirmed: %v", err)
			}
		}
		s.wait(ctx, moved, s.timing.Retry)
	}
	return "", ctx.Err()
}

// refresh beats for a silo that joined some time ago, so that its deadline isn't that of its first try: by a beat that is confirmed the silo
// wasn't dead when that came.
func (s *Sequence) refresh(ctx context.Context, silo directory.Silo, sent *clock.Time) {
	calling, done := s.call(ctx)
	defer done()
	now := s.now()
	if err := s.Beat(calling, silo); err == nil {
		*sent = now
	}
}

func (s *Sequence) begin(silo directory.Silo, chain beats.Chain) {
	s.mu.Lock()
	defer s.mu.Unlock()
	s.chains[silo] = chain
}

// attempt is what a join would be now.
type attempt struct {
	change      directory.Change
	transaction Transaction
	isReady     bool   // the directory is known
	isMine      bool   // it was decided already
	waits       string // for what
	left        time.Duration
	err         error
}

func (s *Sequence) attempt(options JoinOptions) attempt {
	s.mu.Lock()
	defer s.mu.Unlock()
	if !s.caughtUp {
		return attempt{}
	}
	newest := s.views.Newest(options.Endpoint)
	if newest > 0 && s.views.Token(directory.At(options.Endpoint, newest)) == options.Token {
		return attempt{change: directory.Change{Silo: directory.At(options.Endpoint, newest)}, isMine: true}
	}
	silo := directory.At(options.Endpoint, newest+1)
	a := attempt{isReady: true, change: directory.Change{Version: s.views.Version() + 1, Kind: directory.Joined, Silo: silo, Token: options.Token}}
	a.transaction = Transaction{If: []Condition{{Key: beatKey(silo), Revision: Absent}}, Put: []Entry{{Key: beatKey(silo), Value: options.Token}}}
	a.err = s.views.Check(a.change)
	old := s.views.Occupant(options.Endpoint)
	a.waits, a.left = s.awaited(old)
	if old == "" {
		return a
	}
	a.transaction.Delete = []string{beatKey(old), statusKey(old)}
	if options.Ended != nil && options.Ended(old, s.views.Token(old)) {
		return a
	}
	seen, isKnown := s.beats[old]
	a.transaction.If = append(a.transaction.If, stands(old, seen.Beat))
	if !isKnown || !seen.IsOverdue(s.now(), s.patience()) {
		a.waits, a.left = "the end of "+string(old)+", which had this endpoint, counted from its last beat", s.patience()-s.now().Sub(seen.Since)
	}
	return a
}

// awaited is what a join waits for besides the end of the older generation. A store that was turned back may lack changes that agents go on by: they
// end by their next beat, or at their deadline. So a new directory waits for a TTL and the lock delay; and in another each member has to beat once
// before this agent's eyes, or to be silent for as long.
func (s *Sequence) awaited(old directory.Silo) (what string, left time.Duration) {
	if since := s.now().Sub(s.began); s.views.Version() == 0 && since < s.patience() {
		return "agents of an earlier directory of this name, if there was one", s.patience() - since
	}
	for _, silo := range s.views.Members() {
		if seen := s.beats[silo]; silo != old && seen.Old && !seen.IsOverdue(s.now(), s.patience()) {
			return "a beat of " + string(silo), s.patience() - s.now().Sub(seen.Since)
		}
	}
	return "", 0
}

// Leave decides that a silo leaves, unless it does already.
func (s *Sequence) Leave(ctx context.Context, silo directory.Silo) error {
	return s.decide(ctx, func(views *directory.Views) (directory.Change, Transaction, bool) {
		return directory.Change{Kind: directory.Leaving, Silo: silo}, Transaction{}, views.Status(silo) == directory.IsActive
	})
}

// decide proposes a change until it was made, or isn't wanted any more.
func (s *Sequence) decide(ctx context.Context, wanted func(*directory.Views) (directory.Change, Transaction, bool)) error {
	for {
		moved := s.Moved()
		s.mu.Lock()
		change, transaction, isWanted := wanted(s.views)
		change.Version = s.views.Version() + 1
		err := s.fault
		s.mu.Unlock()
		if !isWanted || err != nil {
			return err
		}
		made, _, err := s.propose(ctx, change, transaction)
		if made {
			return nil
		}
		if ctx.Err() != nil {
			return fmt.Errorf("%v wasn't decided: %w", change, ctx.Err())
		}
		if err != nil {
			log.Printf("warning: %v isn't confirmed: %v", change, err)
		} else {
			s.testNews()
		}
		s.wait(ctx, moved, s.timing.Retry)
	}
}

// VoteOut ends a member's beat. Its agent can't lengthen its deadline from then on, so it has ended when a TTL has passed, whatever it reaches.
func (s *Sequence) VoteOut(ctx context.Context, silo directory.Silo) error {
	s.mu.Lock()
	state := s.beats[silo]
	isIn := s.views.IsMember(silo)
	s.mu.Unlock()
	if !isIn || state.Beat == (beats.Beat{}) {
		return nil
	}
	calling, done := s.call(ctx)
	defer done()
	_, _, err := s.commit(calling, Transaction{If: []Condition{{Key: beatKey(silo), Revision: Present}}, Delete: []string{beatKey(silo)}})
	return err
}

// Report writes a silo's status, while it has a beat.
func (s *Sequence) Report(ctx context.Context, silo directory.Silo, status string) error {
	calling, done := s.call(ctx)
	defer done()
	_, _, err := s.commit(calling, Transaction{If: []Condition{{Key: beatKey(silo), Revision: Present}}, Put: []Entry{{Key: statusKey(silo), Value: status}}})
	return err
}

// HasBeat says whether a silo's beat is there, as far as is known.
func (s *Sequence) HasBeat(silo directory.Silo) bool {
	s.mu.Lock()
	defer s.mu.Unlock()
	return s.beats[silo].Beat != beats.Beat{}
}

// await waits until a version is known.
func (s *Sequence) await(ctx context.Context, version uint64) {
	for ctx.Err() == nil {
		moved := s.Moved()
		if s.Version() >= version || s.Fault() != nil {
			return
		}
		s.wait(ctx, moved, s.timing.Retry)
		s.testNews()
	}
}

// wait waits until something was read, or for so long.
func (s *Sequence) wait(ctx context.Context, moved <-chan struct{}, most time.Duration) {
	timer := time.NewTimer(most)
	defer timer.Stop()
	select {
	case <-ctx.Done():
	case <-moved:
	case <-timer.C:
	}
}
