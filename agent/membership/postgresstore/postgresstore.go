// Package postgresstore keeps a directory's membership in PostgreSQL, in a table grain_directory. Transactions of one directory come one after the
// other, so revisions rise in the order in which they are seen; what was deleted stays as a row without a value, so that a watch can tell it.
package postgresstore

import (
	"context"
	"database/sql"
	"errors"
	"fmt"
	"hash/fnv"
	"strings"
	"time"

	"github.com/lib/pq"

	"agent/membership"
)

// poll is how often a watch looks.
const poll = 100 * time.Millisecond

// most is how many events a watch tells at once.
const most = 1000

const schema = `CREATE TABLE IF NOT EXISTS grain_directory (
	directory text NOT NULL, key text COLLATE "C" NOT NULL, value text, revision bigint NOT NULL, PRIMARY KEY (directory, key));
CREATE INDEX IF NOT EXISTS grain_directory_revision ON grain_directory (directory, revision);
CREATE TABLE IF NOT EXISTS grain_directory_revision_of (directory text PRIMARY KEY, revision bigint NOT NULL)`

// Store is a directory in PostgreSQL.
type Store struct {
	db        *sql.DB
	directory string
	lock      int64
}

// Open opens a directory; source is a URL, or words, as libpq takes them. It makes the tables where they are missing and it may.
func Open(ctx context.Context, source, directory string) (*Store, error) {
	connector, err := pq.NewConnector(source)
	if err != nil {
		return nil, err
	}
	connector.Dialer(dialer{})
	db := sql.OpenDB(connector)
	db.SetMaxOpenConns(8)
	hash := fnv.New64a()
	hash.Write([]byte("grain_directory " + directory))
	s := &Store{db, directory, int64(hash.Sum64())}
	if _, err := bounded(ctx, func() (bool, error) { return true, s.makeTables(ctx) }); err != nil {
		db.Close()
		return nil, err
	}
	return s, nil
}

func (s *Store) makeTables(ctx context.Context) error {
	var isThere bool
	row := s.db.QueryRowContext(ctx, `SELECT to_regclass('grain_directory') IS NOT NULL AND to_regclass('grain_directory_revision_of') IS NOT NULL`)
	if err := row.Scan(&isThere); err != nil || isThere {
		return err
	}
	return s.in(ctx, func(tx *sql.Tx) error {
		_, err := tx.ExecContext(ctx, schema)
		return err
	})
}

// in does something in a transaction that no other of this directory overlaps.
func (s *Store) in(ctx context.Context, do func(*sql.Tx) error) error {
	tx, err := s.db.BeginTx(ctx, nil)
	if err != nil {
		return err
	}
	defer tx.Rollback()
	if _, err := tx.ExecContext(ctx, `SELECT pg_advisory_xact_lock($1)`, s.lock); err != nil {
		return err
	}
	if err := do(tx); err != nil {
		return err
	}
	return tx.Commit()
}

// state is what a Read gives.
type state struct {
	entries []membership.Entry
	at      membership.Revision
}

// Read implements membership.Store.
func (s *Store) Read(ctx context.Context, prefix string) ([]membership.Entry, membership.Revision, error) {
	read, err := bounded(ctx, func() (state, error) {
		entries, at, err := s.read(ctx, prefix)
		return state{entries, at}, err
	})
	return read.entries, read.at, err
}

func (s *Store) read(ctx context.Context, prefix string) (entries []membership.Entry, at membership.Revision, err error) {
	tx, err := s.db.BeginTx(ctx, &sql.TxOptions{Isolation: sql.LevelRepeatableRead, ReadOnly: true})
	if err != nil {
		return nil, 0, err
	}
	defer tx.Rollback()
	if at, err = s.revision(ctx, tx, nil); err != nil {
		return nil, 0, err
	}
	rows, err := tx.QueryContext(ctx, `SELECT key, value, revision FROM grain_directory WHERE directory = $1 AND starts_with(key, $2) AND value IS NOT NULL
		ORDER BY key`, s.directory, prefix)
	if err != nil {
		return nil, 0, err
	}
	defer rows.Close()
	for rows.Next() {
		var entry membership.Entry
		if err := rows.Scan(&entry.Key, &entry.Value, &entry.Revision); err != nil {
			return nil, 0, err
		}
		entries = append(entries, entry)
	}
	return entries, at, rows.Err()
}

// Watch implements membership.Store. Of several writings of one key since it looked last, it tells the last one.
func (s *Store) Watch(ctx context.Context, after membership.Revision, tell func([]membership.Event)) error {
	ticks := time.NewTicker(poll)
	defer ticks.Stop()
	for {
		calling, done := context.WithTimeout(ctx, silence) // a server that stands still ends the watch
		events, err := bounded(calling, func() ([]membership.Event, error) { return s.since(calling, after) })
		done()
		if err != nil {
			return err
		}
		if len(events) > 0 {
			after = events[len(events)-1].Revision
			tell(events)
			continue
		}
		select {
		case <-ctx.Done():
			return ctx.Err()
		case <-ticks.C:
		}
	}
}

// since gives the events behind a revision, those of the last revision among them whole.
func (s *Store) since(ctx context.Context, after membership.Revision) (events []membership.Event, err error) {
	rows, err := s.db.QueryContext(ctx, `SELECT key, value, revision FROM grain_directory WHERE directory = $1 AND revision > $2
		ORDER BY revision FETCH FIRST $3 ROWS WITH TIES`, s.directory, int64(after), most)
	if err != nil {
		return nil, err
	}
	defer rows.Close()
	for rows.Next() {
		var event membership.Event
		var value sql.NullString
		if err := rows.Scan(&event.Key, &value, &event.Revision); err != nil {
			return nil, err
		}
		event.Value, event.Gone = value.String, !value.Valid
		events = append(events, event)
	}
	return events, rows.Err()
}

var errUnmet = errors.New("a condition doesn't hold")

// outcomeOf is what a Commit gives.
type outcomeOf struct {
	made bool
	at   membership.Revision
}

// Commit implements membership.Store.
func (s *Store) Commit(ctx context.Context, transaction membership.Transaction) (bool, membership.Revision, error) {
	done, err := bounded(ctx, func() (outcomeOf, error) { return s.commit(ctx, transaction) })
	return done.made, done.at, err
}

func (s *Store) commit(ctx context.Context, transaction membership.Transaction) (done outcomeOf, err error) {
	err = s.in(ctx, func(tx *sql.Tx) error {
		for _, condition := range transaction.If {
			if err := s.test(ctx, tx, condition); err != nil {
				if errors.Is(err, errUnmet) {
					done.at, err = s.revision(ctx, tx, err)
				}
				return err
			}
		}
		done.at, err = s.write(ctx, tx, transaction)
		return err
	})
	if errors.Is(err, errUnmet) {
		return done, nil
	}
	done.made = err == nil
	return done, err
}

// revision is the last one, beside a fault.
func (s *Store) revision(ctx context.Context, tx *sql.Tx, fault error) (at membership.Revision, err error) {
	row := tx.QueryRowContext(ctx, `SELECT coalesce(max(revision), 0) FROM grain_directory_revision_of WHERE directory = $1`, s.directory)
	if err := row.Scan(&at); err != nil {
		return 0, err
	}
	return at, fault
}

func (s *Store) test(ctx context.Context, tx *sql.Tx, condition membership.Condition) error {
	var revision membership.Revision
	var value string
	err := tx.QueryRowContext(ctx, `SELECT revision, value FROM grain_directory WHERE directory = $1 AND key = $2 AND value IS NOT NULL`, s.directory,
		condition.Key).Scan(&revision, &value)
	isThere := err == nil
	if err != nil && !errors.Is(err, sql.ErrNoRows) {
		return err
	}
	holds := isThere && revision == condition.Revision
	switch condition.Revision {
	case membership.Absent:
		holds = !isThere
	case membership.Present:
		holds = isThere
	}
	if !holds || condition.Value != "" && value != condition.Value {
		return errUnmet
	}
	return nil
}

func (s *Store) write(ctx context.Context, tx *sql.Tx, transaction membership.Transaction) (revision membership.Revision, err error) {
	if err := tx.QueryRowContext(ctx, `INSERT INTO grain_directory_revision_of VALUES ($1, 1)
		ON CONFLICT (directory) DO UPDATE SET revision = grain_directory_revision_of.revision + 1 RETURNING revision`, s.directory).Scan(&revision); err != nil {
		return 0, err
	}
	for _, key := range transaction.Delete {
		if _, err := tx.ExecContext(ctx, `UPDATE grain_directory SET value = NULL, revision = $3 WHERE directory = $1 AND key = $2 AND value IS NOT NULL`,
			s.directory, key, revision); err != nil {
			return 0, err
		}
	}
	for _, put := range transaction.Put {
		if strings.IndexByte(put.Value, 0) >= 0 {
			return 0, fmt.Errorf("%s has a value that PostgreSQL doesn't take", put.Key)
		}
		if _, err := tx.ExecContext(ctx, `INSERT INTO grain_directory VALUES ($1, $2, $3, $4)
			ON CONFLICT (directory, key) DO UPDATE SET value = excluded.value, revision = excluded.revision`, s.directory, put.Key, put.Value, revision); err != nil {
			return 0, err
		}
	}
	return revision, nil
}

// Close implements membership.Store.
func (s *Store) Close() error { return s.db.Close() }
