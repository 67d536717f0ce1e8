package member

import (
	"fmt"
	"sort"
	"strings"

	"agent/applications"
	"agent/directory"
	"agent/peers"
)

// another is where a grain of that place goes, if it leaves this silo: there, or to the next active silo where the place is this one, or was one
// that leaves by now.
func (m *Member) another(place directory.Silo) directory.Silo {
	members, _ := m.members()
	var others []directory.Silo
	for _, other := range members {
		if other != m.me && m.options.Sequence.Status(other) == directory.IsActive {
			others = append(others, other)
		}
	}
	return fromOn(place, others)
}

// fromOn is a silo, or the next one behind it in the order of their texts, around; "" where there is none.
func fromOn(silo directory.Silo, silos []directory.Silo) directory.Silo {
	if len(silos) == 0 {
		return ""
	}
	sort.Slice(silos, func(i, j int) bool { return silos[i] < silos[j] })
	next := sort.Search(len(silos), func(i int) bool { return silos[i] >= silo })
	return silos[next%len(silos)]
}

func (m *Member) statusLine() string {
	members, _ := m.members()
	m.mu.Lock()
	defer m.mu.Unlock()
	return fmt.Sprintf("%s version %d seen %d settled %d members %d", m.me, m.told, m.status.Seen, m.settled, len(members))
}

// membersLine is what `members` answers: the silos that aren't dead, with their applications' names.
func (m *Member) membersLine() string {
	var words []string
	m.options.Sequence.Look(func(views *directory.Views, statuses map[directory.Silo]string) {
		members := views.Members()
		sort.Slice(members, func(i, j int) bool { return members[i] < members[j] })
		words = []string{fmt.Sprint(views.Version())}
		for _, silo := range members {
			words = append(words, string(silo), string(views.Status(silo)), applications.NamesText(peers.ReadReport(statuses[silo]).Names))
		}
	})
	return strings.Join(words, " ")
}

// tellNames tells the applications what names of a silo's applications have changed.
func (m *Member) tellNames(members []directory.Silo, reports map[directory.Silo]peers.Report) {
	now := map[directory.Silo]string{}
	for _, silo := range members {
		names := reports[silo].Names
		if now[silo] = applications.NamesText(names); now[silo] != m.names[silo] && (len(names) > 0 || m.names[silo] != "") {
			m.service.Named(silo, names)
		}
	}
	m.names = now
}
