package member

import (
	"log"
	"time"

	"agent/directory"
	"agent/peers"
)

// compact has the changes that all silos have seen compacted, where they have become many. The first of the members does so.
func (m *Member) compact() {
	for wait := 10 * time.Second; m.ctx.Err() == nil; {
		sleep(m.ctx, wait)
		members, reports := m.members()
		if wait = 10 * time.Second; !m.fence.May() || !isFirst(m.me, members) {
			continue
		}
		more, err := m.options.Sequence.Compact(m.ctx, seenByAll(members, reports))
		if err != nil && m.ctx.Err() == nil {
			log.Printf("warning: changes aren't compacted: %v", err)
		} else if more {
			wait = 20 * time.Millisecond
		}
	}
}

func isFirst(me directory.Silo, members []directory.Silo) bool {
	for _, silo := range members {
		if silo < me {
			return false
		}
	}
	return true
}

// seenByAll is the version that all members have seen, as they report; 0 where one reports nothing.
func seenByAll(members []directory.Silo, reports map[directory.Silo]peers.Report) uint64 {
	seen := ^uint64(0)
	for _, silo := range members {
		if report := reports[silo]; report.Seen < seen {
			seen = report.Seen
		}
	}
	return seen
}
