package membership

import (
	"context"
	"fmt"
	"log"
	"strconv"
	"strings"
	"sync"
	"time"

	"agent/beats"
	"agent/clock"
	"agent/directory"
)

// Timing is how long things of membership take.
type Timing struct {
	TTL       time.Duration // a beat that stands still for so long may end its silo
	LockDelay time.Duration // what others wait for more
	Call      time.Duration // what a call of the store may take
	Retry     time.Duration // between two tries
}

// Sequence follows the changes of a directory, and proposes changes.
type Sequence struct {
	store  Store
	timing Timing
	now    clock.Clock

	beating sync.Mutex // held by who writes a beat of this agent's silo

	mu        sync.Mutex
	views     *directory.Views
	base      uint64             // the version with which this began: 0, or that of a view
	first     string             // that view
	view      uint64             // the version of the view in the store: changes up to it may be gone
	viewEntry Entry              // as it stands there
	oldest    uint64             // up to which version changes are gone, by what was read
	changes   []directory.Change // behind the base
	revisions []Revision         // of the changes
	last      Entry              // the last change, as it stands in the store
	beats     map[directory.Silo]beats.Seen
	chains    map[directory.Silo]beats.Chain // the beats of those that joined by this sequence
	statuses  map[directory.Silo]string
	fault     error
	highest   Revision // of all answers
	caughtUp  bool
	began     clock.Time    // when all was read for the first time
	moved     chan struct{} // closed, and made anew, when something was read
	read      clock.Time    // when that was
	reread    func()        // ends the watch that there is
}

// New follows a directory in a store, once Follow runs.
func New(store Store, timing Timing, now clock.Clock) *Sequence {
	return &Sequence{store: store, timing: timing, now: now, views: directory.NewViews(), beats: map[directory.Silo]beats.Seen{},
		chains: map[directory.Silo]beats.Chain{}, statuses: map[directory.Silo]string{}, moved: make(chan struct{})}
}

const settingsKey = "settings"

func changeKey(version uint64) string      { return fmt.Sprintf("change/%010d", version) }
func beatKey(silo directory.Silo) string   { return "beat/" + string(silo) }
func statusKey(silo directory.Silo) string { return "status/" + string(silo) }
func (s *Sequence) call(ctx context.Context) (context.Context, context.CancelFunc) {
	return context.WithTimeout(ctx, s.timing.Call)
}

// mostRead is how long a reading of all may take at most. It may be large, and isn't what beats wait for.
const mostRead = time.Minute

// Follow reads all there is, and then all news, until ctx ends. Where the watch is lost, be it by a compaction, all is read again. A reading that takes
// longer than a call may has ever more time, since another server may have been at fault.
func (s *Sequence) Follow(ctx context.Context) {
	patience := s.timing.Call
	for ctx.Err() == nil {
		wasRead, err := s.readAndWatch(ctx, patience)
		if ctx.Err() != nil {
			return
		}
		if patience *= 2; patience > mostRead {
			patience = mostRead
		}
		if wasRead {
			patience = s.timing.Call
		}
		log.Printf("warning: the store is lost, and tried again: %v", err)
		pause(ctx, s.timing.Retry)
	}
}

func (s *Sequence) readAndWatch(ctx context.Context, patience time.Duration) (wasRead bool, err error) {
	calling, done := context.WithTimeout(ctx, patience)
	entries, revision, err := s.readAt(calling, "")
	done()
	if err != nil {
		return false, err
	}
	s.takeAll(entries)
	watching, stop := context.WithCancel(ctx)
	defer stop()
	s.mu.Lock()
	s.reread = stop
	s.mu.Unlock()
	return true, s.store.Watch(watching, revision, s.take)
}

// Reread has all read again, where the watch tells nothing: as where a silo's own beats, which the store confirmed, don't come by it.
func (s *Sequence) Reread() {
	s.mu.Lock()
	defer s.mu.Unlock()
	if s.reread != nil {
		s.reread()
	}
}

// testNews has all read again where news has to come by the watch, and none does.
func (s *Sequence) testNews() {
	s.mu.Lock()
	isLate := s.now().Sub(s.read) > s.timing.Call
	if isLate {
		s.read = s.now()
	}
	s.mu.Unlock()
	if isLate {
		log.Print("warning: the watch of the store tells nothing: all is read again")
		s.Reread()
	}
}

// BeatSeen is when this agent last saw a silo's beat change, by its own clock.
func (s *Sequence) BeatSeen(silo directory.Silo) clock.Time {
	s.mu.Lock()
	defer s.mu.Unlock()
	return s.beats[silo].Since
}

// takeAll takes all entries: what isn't among them is gone.
func (s *Sequence) takeAll(entries []Entry) {
	s.mu.Lock()
	defer s.mu.Unlock()
	there := map[string]bool{}
	s.viewEntry = Entry{}
	for _, entry := range entries {
		if entry.Key == viewKey { // before the changes
			s.viewEntry = entry
			s.takeView(Event{Entry: entry})
		}
	}
	s.oldest = s.view
	if s.view > 0 && s.viewEntry.Revision == 0 {
		s.hurt("the view of version %d is gone from the store", s.view)
	}
	for _, entry := range entries {
		there[entry.Key] = true
		s.takeOne(Event{Entry: entry})
	}
	for _, change := range s.changes {
		if !there[changeKey(change.Version)] && change.Version > s.view {
			s.hurt("%v is gone from the store", change)
		}
	}
	for silo := range s.statuses {
		if !there[statusKey(silo)] {
			delete(s.statuses, silo)
		}
	}
	for _, silo := range s.views.Members() {
		if !there[beatKey(silo)] {
			s.saw(silo, beats.Beat{})
		}
	}
	if !s.caughtUp {
		s.caughtUp, s.began = true, s.now()
	}
	s.announce()
}

func (s *Sequence) take(events []Event) {
	s.mu.Lock()
	defer s.mu.Unlock()
	for _, event := range events {
		s.takeOne(event)
		if event.Revision > s.highest {
			s.highest = event.Revision
		}
	}
	s.announce()
}

func (s *Sequence) announce() {
	s.read = s.now()
	close(s.moved)
	s.moved = make(chan struct{})
}

// takeOne takes one entry or event. Beats sort before changes, and statuses behind them, so a beat may come before its silo's join.
func (s *Sequence) takeOne(event Event) {
	part, name, _ := strings.Cut(event.Key, "/")
	silo := directory.Silo(name)
	switch part {
	case "change":
		s.takeChange(event)
	case viewKey:
		if s.caughtUp {
			s.viewEntry = event.Entry
			s.takeView(event)
		}
	case "beat":
		if event.Gone {
			s.saw(silo, beats.Beat{})
		} else {
			s.saw(silo, beatOf(event.Entry))
		}
	case "status":
		if event.Gone {
			delete(s.statuses, silo)
		} else {
			s.statuses[silo] = event.Value
		}
	}
}

func beatOf(entry Entry) beats.Beat {
	return beats.Beat{Revision: int64(entry.Revision), Value: entry.Value}
}

func (s *Sequence) saw(silo directory.Silo, beat beats.Beat) {
	if s.views.Status(silo) == directory.IsDead {
		delete(s.beats, silo)
	} else if old, isKnown := s.beats[silo]; isKnown {
		s.beats[silo] = old.Saw(beat, s.now())
	} else {
		s.beats[silo] = beats.Seen{Beat: beat, Since: s.now(), Old: !s.caughtUp}
	}
}

// takeChange takes a change if it is the next; one that is known has to be the same, as it was written.
func (s *Sequence) takeChange(event Event) {
	if version := versionOf(event.Key); version > 0 && version <= s.view { // compacted, and taken away some time
		if !event.Gone && version-1 < s.oldest {
			s.oldest = version - 1
		} else if event.Gone && version == s.oldest+1 {
			s.oldest = version
		}
		if event.Gone || version <= s.base {
			return
		}
	}
	change, err := readChange(event)
	if err != nil {
		s.hurt("%v", err)
		return
	}
	if known := change.Version - 1 - s.base; change.Version <= s.views.Version() {
		if s.changes[known] != change || s.revisions[known] != event.Revision {
			s.hurt("change %d was %v, written at revision %d, and is now %v, written at %d", change.Version, s.changes[known], s.revisions[known], change,
				event.Revision)
		}
		return
	}
	died, err := s.views.Take(change)
	if err != nil {
		s.hurt("the store has a change that silos refuse: %v", err)
		return
	}
	s.changes, s.revisions, s.last = append(s.changes, change), append(s.revisions, event.Revision), event.Entry
	if died != "" {
		delete(s.beats, died)
		delete(s.statuses, died)
	}
}

func changeText(c directory.Change) string {
	text := string(c.Kind) + " " + string(c.Silo)
	if c.Token != "" {
		text += " " + c.Token
	}
	return text
}

// versionOf is the version of a change's key, 0 where that is none.
func versionOf(key string) uint64 {
	version, err := strconv.ParseUint(strings.TrimPrefix(key, "change/"), 10, 64)
	if err != nil || changeKey(version) != key {
		return 0
	}
	return version
}

func readChange(event Event) (change directory.Change, err error) {
	words := strings.Fields(event.Value)
	if event.Gone || len(words) < 2 || len(words) > 3 {
		return change, fmt.Errorf("%s is gone from the store, or can't be read: %q", event.Key, event.Value)
	}
	if change.Version = versionOf(event.Key); change.Version == 0 {
		return change, fmt.Errorf("%q is no key of a change", event.Key)
	}
	change.Kind, change.Silo = directory.Kind(words[0]), directory.Silo(words[1])
	if len(words) == 3 {
		change.Token = words[2]
	}
	return change, nil
}

// Moved is closed when something more was read.
func (s *Sequence) Moved() <-chan struct{} {
	s.mu.Lock()
	defer s.mu.Unlock()
	return s.moved
}

// Changes are those behind a version.
func (s *Sequence) Changes(after uint64) []directory.Change {
	s.mu.Lock()
	defer s.mu.Unlock()
	if after < s.base {
		return nil // they were compacted, which no silo that lives waits for
	}
	return s.changes[after-s.base : len(s.changes) : len(s.changes)]
}

// Before is the version before a silo's join, and what its view lists, once the join is known; else version 0, which lists nothing. A join that was
// compacted is known no more: all members had seen it.
func (s *Sequence) Before(silo directory.Silo) (version uint64, rows []directory.Listed) {
	s.mu.Lock()
	changes, base := s.changes, s.base
	s.mu.Unlock()
	views, err := s.viewsAt(base)
	if err != nil {
		return 0, nil
	}
	for _, change := range changes {
		if change.Kind == directory.Joined && change.Silo == silo {
			return views.Version(), views.Listing()
		}
		if _, err := views.Take(change); err != nil {
			break // it was taken before
		}
	}
	return 0, nil
}

// Look calls something with the views, which it may only read, and the statuses. It may not call the sequence.
func (s *Sequence) Look(look func(views *directory.Views, statuses map[directory.Silo]string)) {
	s.mu.Lock()
	defer s.mu.Unlock()
	look(s.views, s.statuses)
}

// Version is the last version that was made.
func (s *Sequence) Version() uint64 {
	s.mu.Lock()
	defer s.mu.Unlock()
	return s.views.Version()
}

// Status is a silo's standing.
func (s *Sequence) Status(silo directory.Silo) directory.Status {
	s.mu.Lock()
	defer s.mu.Unlock()
	return s.views.Status(silo)
}

func pause(ctx context.Context, wait time.Duration) {
	timer := time.NewTimer(wait)
	defer timer.Stop()
	select {
	case <-ctx.Done():
	case <-timer.C:
	}
}
