// Package membership keeps the one sequence of changes of a directory in a store that compares and sets. There is no leader and no election:
// whoever sees what is to be decided proposes it, and one of them comes first.
//
// In the store stand, under the name of the directory:
//
//	settings           what all silos share
//	change/0000000007  the change that made version 7: written once, in a transaction that wants it absent, and the one before as it was read
//	view               what changes up to its version made: they may be gone. An agent that starts begins with it
//	beat/SILO          written often by the silo's agent while it lasts, each on the one before; its end is what a death wants
//	status/SILO        what the silo has seen and settled, and whom it doesn't hear
package membership

import "context"

// Revision is when an entry of the store was last written, in an order that all writes of a directory share.
type Revision int64

// Conditions on an entry other than that it has a revision.
const (
	Absent  Revision = 0
	Present Revision = -1
)

// Entry is a key of the store with its value.
type Entry struct {
	Key, Value string
	Revision   Revision
}

// Event is an entry that was written, or is gone.
type Event struct {
	Entry
	Gone bool
}

// Condition wants an entry Absent, Present, or unchanged since a revision. Where a value is named, it has to have that, too: a store that was turned
// back gives revisions anew.
type Condition struct {
	Key      string
	Revision Revision
	Value    string
}

// Transaction is carried out whole if all its conditions hold, and else not at all.
type Transaction struct {
	If     []Condition
	Put    []Entry // their revisions don't count
	Delete []string
}

// Store is what keeps a directory's membership. Its calls may fail at any time; whether a Commit that failed was carried out isn't known.
type Store interface {
	// Read gives all entries under a prefix, by key, and the revision at which they were so.
	Read(ctx context.Context, prefix string) ([]Entry, Revision, error)
	// Watch tells what is written behind a revision, in order, with nothing left out. It returns when ctx ends, or with an error when it can't
	// go on, be it that what it has to tell was compacted: then everything has to be read again.
	Watch(ctx context.Context, after Revision, tell func([]Event)) error
	// Commit carries a transaction out, and says whether its conditions held, and at which revision that was; it is that of what was written.
	Commit(ctx context.Context, transaction Transaction) (bool, Revision, error)
	// Close gives the store's connections back.
	Close() error
}
