package member

import (
	"testing"

	"agent/directory"
	"agent/peers"
)

// What one member hasn't seen, or doesn't report, isn't compacted; one of them does it.
func TestSeenByAll(t *testing.T) {
	members := []directory.Silo{"10.0.0.2:1@1", "10.0.0.1:1@1"}
	for expected, reports := range map[uint64]map[directory.Silo]peers.Report{
		0: {members[0]: {Seen: 9}}, 7: {members[0]: {Seen: 9}, members[1]: {Seen: 7}, "10.0.0.3:1@1": {Seen: 1}}} {
		if seen := seenByAll(members, reports); seen != expected {
			t.Errorf("seen %d, not %d", seen, expected)
		}
	}
	if isFirst(members[0], members) || !isFirst(members[1], members) {
		t.Error("another is the first")
	}
}
