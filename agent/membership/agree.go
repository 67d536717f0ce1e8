package membership

import (
	"context"
	"errors"

	"agent/directory"
)

// ErrNoDirectory says that the store has no directory of this name. No agent makes one by itself: a store that was wiped would have it begin anew,
// with tokens that were given before.
var ErrNoDirectory = errors.New("the store has no directory of this name: if there never was one, begin it by grain-directory-agent --create, once; " +
	"if there was, the store has lost it")

// Create writes the settings of a new directory, and says whether there was none.
func Create(ctx context.Context, store Store, settings directory.Settings) (bool, error) {
	made, _, err := store.Commit(ctx, Transaction{If: []Condition{{Key: settingsKey, Revision: Absent}, {Key: changeKey(1), Revision: Absent}},
		Put: []Entry{{Key: settingsKey, Value: settings.Text()}}})
	return made, err
}

// Agree compares the settings with the directory's, and gives its version; or a directory.Difference or OtherVersion, ErrNoDirectory, or the store's fault.
func Agree(ctx context.Context, store Store, settings directory.Settings) (version int, err error) {
	entry, err := readSettings(ctx, store)
	if err != nil {
		return 0, err
	}
	return settings.Agree(entry.Value)
}

// Raise gives a directory a higher version, unless it has that, and gives the one that it had.
func Raise(ctx context.Context, store Store, to int) (from int, err error) {
	for {
		entry, err := readSettings(ctx, store)
		if err != nil {
			return 0, err
		}
		if from, err = directory.VersionOf(entry.Value); err != nil || from >= to {
			return from, err
		}
		made, _, err := store.Commit(ctx, Transaction{If: []Condition{{Key: settingsKey, Revision: entry.Revision}},
			Put: []Entry{{Key: settingsKey, Value: directory.WithVersion(entry.Value, to)}}})
		if made || err != nil {
			return from, err
		}
	}
}

func readSettings(ctx context.Context, store Store) (Entry, error) {
	entries, _, err := store.Read(ctx, settingsKey)
	if err != nil {
		return Entry{}, err
	}
	for _, entry := range entries {
		if entry.Key == settingsKey {
			return entry, nil
		}
	}
	return Entry{}, ErrNoDirectory
}
