package membership

import (
	"context"
	"fmt"
	"strconv"
	"strings"

	"agent/directory"
)

// Bounds of the changes in the store: so many last ones stay, and more are compacted into a view once there are so many.
const (
	kept      = 1000
	compacted = 3000
	atOnce    = 100 // keys in a transaction: etcd takes 128
)

const viewKey = "view"

// viewText is a view as it stands in the store: VERSION SILO/STATUS[/TOKEN] .., of each endpoint the newest silo.
func viewText(views *directory.Views) string {
	words := []string{strconv.FormatUint(views.Version(), 10)}
	for _, row := range views.Listing() {
		word := string(row.Silo) + "/" + string(row.Status)
		if token := views.Token(row.Silo); token != "" {
			word += "/" + token
		}
		words = append(words, word)
	}
	return strings.Join(words, " ")
}

func readView(text string) (*directory.Views, error) {
	words := strings.Fields(text)
	if len(words) == 0 {
		return nil, fmt.Errorf("an empty view")
	}
	version, err := strconv.ParseUint(words[0], 10, 64)
	if err != nil || version == 0 {
		return nil, fmt.Errorf("%q is no view's version", words[0])
	}
	var rows []directory.Listed
	tokens := map[directory.Silo]string{}
	for _, word := range words[1:] {
		parts := strings.SplitN(word, "/", 3)
		if len(parts) < 2 {
			return nil, fmt.Errorf("%q is no silo of a view", word)
		}
		row := directory.Listed{Silo: directory.Silo(parts[0]), Status: directory.Status(parts[1])}
		if rows = append(rows, row); len(parts) == 3 {
			tokens[row.Silo] = parts[2]
		}
	}
	return directory.ViewsFrom(version, rows, tokens)
}

// takeView takes the view in the store: the changes that made it may be gone. Who has read less begins with it. mu is held.
func (s *Sequence) takeView(event Event) {
	views, err := readView(event.Value)
	switch {
	case event.Gone || err != nil:
		s.hurt("the view in the store is gone, or can't be read (%v)", err)
	case views.Version() < s.view:
		s.hurt("the view in the store is that of version %d, and was that of %d", views.Version(), s.view)
	case views.Version() > s.views.Version(): // it has read none, or was cut off for long: a member is waited for, so this agent has no silo
		s.view, s.base, s.views, s.first = views.Version(), views.Version(), views, event.Value
		s.changes, s.revisions, s.last = nil, nil, Entry{}
		for silo := range s.beats {
			if !views.IsMember(silo) {
				delete(s.beats, silo)
				delete(s.statuses, silo)
			}
		}
	default:
		s.view = views.Version()
	}
}

// Compact writes a view in place of the changes below it, where there are too many: those that no silo is told any more, since all members have seen
// the version `seen`. It takes some of them away, and says whether there are more.
func (s *Sequence) Compact(ctx context.Context, seen uint64) (more bool, err error) {
	s.mu.Lock()
	view, oldest, version := s.view, s.oldest, s.views.Version()
	target := version - kept
	if version < kept || target > seen {
		target = seen
	}
	isDue := target > view && version-oldest >= compacted && s.caughtUp && s.fault == nil
	before := s.viewEntry
	s.mu.Unlock()
	if isDue {
		return true, s.writeView(ctx, target, before)
	}
	if view <= oldest {
		return false, nil
	}
	last := oldest + atOnce
	if last > view {
		last = view
	}
	var gone []string
	for change := oldest + 1; change <= last; change++ {
		gone = append(gone, changeKey(change))
	}
	calling, done := s.call(ctx)
	defer done()
	made, _, err := s.commit(calling, Transaction{If: []Condition{{Key: viewKey, Revision: Present}}, Delete: gone})
	if err == nil && made {
		s.mu.Lock()
		if s.oldest < last {
			s.oldest = last
		}
		s.mu.Unlock()
	}
	return last < view, err
}

// writeView writes the view of a version that was read, in place of the one before.
func (s *Sequence) writeView(ctx context.Context, version uint64, before Entry) error {
	views, err := s.viewsAt(version)
	if err != nil {
		return err
	}
	condition := Condition{Key: viewKey, Revision: Absent}
	if before.Revision != 0 {
		condition = Condition{viewKey, before.Revision, before.Value}
	}
	calling, done := s.call(ctx)
	defer done()
	_, _, err = s.commit(calling, Transaction{If: []Condition{condition}, Put: []Entry{{Key: viewKey, Value: viewText(views)}}})
	return err
}

// viewsAt is what the changes up to a version have made.
func (s *Sequence) viewsAt(version uint64) (*directory.Views, error) {
	s.mu.Lock()
	changes, views, err := s.changes, directory.NewViews(), error(nil)
	if s.base > 0 {
		views, err = readView(s.first)
	}
	s.mu.Unlock()
	for _, change := range changes {
		if err != nil || change.Version > version {
			break
		}
		_, err = views.Take(change)
	}
	return views, err
}
