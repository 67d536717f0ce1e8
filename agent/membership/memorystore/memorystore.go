// Package memorystore is a store in memory, for tests.
package memorystore

import (
	"context"
	"errors"
	"sort"
	"strings"
	"sync"

	"agent/membership"
)

// ErrCompacted says that a watch is to tell what was compacted.
var ErrCompacted = errors.New("compacted")

// Store is a store in memory. Tests set Fault, which is asked before each call.
type Store struct {
	mu        sync.Mutex
	some      *sync.Cond
	revision  membership.Revision
	entries   map[string]membership.Entry
	events    []membership.Event
	compacted membership.Revision
	cut       int
	Fault     func(call string) error
}

// New makes an empty store.
func New() *Store {
	s := &Store{entries: map[string]membership.Entry{}}
	s.some = sync.NewCond(&s.mu)
	return s
}

func (s *Store) fault(ctx context.Context, call string) error {
	s.mu.Lock()
	fault := s.Fault
	s.mu.Unlock()
	if fault != nil {
		if err := fault(call); err != nil {
			return err
		}
	}
	return ctx.Err()
}

// SetFault has each call ask for its fault first.
func (s *Store) SetFault(fault func(call string) error) {
	s.mu.Lock()
	defer s.mu.Unlock()
	s.Fault = fault
}

// Compact forgets the events so far; watches that would have to tell them fail. Those that run are cut off.
func (s *Store) Compact() {
	s.mu.Lock()
	defer s.mu.Unlock()
	s.compacted, s.events = s.revision, nil
	s.cut++
	s.some.Broadcast()
}

// Copy is a copy of what stands here now, as from a backup.
func (s *Store) Copy() *Store {
	s.mu.Lock()
	defer s.mu.Unlock()
	other := New()
	other.revision, other.compacted = s.revision, s.revision
	for key, entry := range s.entries {
		other.entries[key] = entry
	}
	return other
}

// Read implements membership.Store.
func (s *Store) Read(ctx context.Context, prefix string) ([]membership.Entry, membership.Revision, error) {
	if err := s.fault(ctx, "read"); err != nil {
		return nil, 0, err
	}
	s.mu.Lock()
	defer s.mu.Unlock()
	var entries []membership.Entry
	for key, entry := range s.entries {
		if strings.HasPrefix(key, prefix) {
			entries = append(entries, entry)
		}
	}
	sort.Slice(entries, func(i, j int) bool { return entries[i].Key < entries[j].Key })
	return entries, s.revision, nil
}

// Watch implements membership.Store.
func (s *Store) Watch(ctx context.Context, after membership.Revision, tell func([]membership.Event)) error {
	if err := s.fault(ctx, "watch"); err != nil {
		return err
	}
	stop := make(chan struct{})
	defer close(stop)
	go func() {
		select {
		case <-ctx.Done():
			s.mu.Lock()
			s.some.Broadcast()
			s.mu.Unlock()
		case <-stop:
		}
	}()
	s.mu.Lock()
	cut := s.cut
	s.mu.Unlock()
	for {
		s.mu.Lock()
		for ctx.Err() == nil && s.cut == cut && s.revision <= after {
			s.some.Wait()
		}
		if ctx.Err() != nil || s.cut != cut || after < s.compacted {
			s.mu.Unlock()
			if ctx.Err() != nil {
				return ctx.Err()
			}
			return ErrCompacted
		}
		var events []membership.Event
		for _, event := range s.events {
			if event.Revision > after {
				events = append(events, event)
			}
		}
		after = s.revision
		s.mu.Unlock()
		tell(events)
	}
}

// Commit implements membership.Store.
func (s *Store) Commit(ctx context.Context, transaction membership.Transaction) (bool, membership.Revision, error) {
	if err := s.fault(ctx, "commit"); err != nil {
		return false, 0, err
	}
	s.mu.Lock()
	defer s.mu.Unlock()
	for _, condition := range transaction.If {
		entry, isThere := s.entries[condition.Key]
		holds := isThere && entry.Revision == condition.Revision
		switch condition.Revision {
		case membership.Absent:
			holds = !isThere
		case membership.Present:
			holds = isThere
		}
		if !holds || condition.Value != "" && entry.Value != condition.Value {
			return false, s.revision, nil
		}
	}
	s.revision++
	for _, key := range transaction.Delete {
		if _, isThere := s.entries[key]; isThere {
			delete(s.entries, key)
			s.events = append(s.events, membership.Event{Entry: membership.Entry{Key: key, Revision: s.revision}, Gone: true})
		}
	}
	for _, put := range transaction.Put {
		put.Revision = s.revision
		s.entries[put.Key] = put
		s.events = append(s.events, membership.Event{Entry: put})
	}
	s.some.Broadcast()
	return true, s.revision, nil
}

// Close implements membership.Store.
func (s *Store) Close() error { return nil }
