package main

import (
	"testing"

	"agent/directory"
)

type standings map[directory.Silo]directory.Status

func (s standings) Status(silo directory.Silo) directory.Status { return s[silo] }

// Who gave itself up waits for those that are members still, until it reaches each.
func TestUnreached(t *testing.T) {
	const one, two, three = directory.Silo("10.0.0.1:1@1"), directory.Silo("10.0.0.2:1@1"), directory.Silo("10.0.0.3:1@1")
	members := standings{one: directory.IsActive, two: directory.IsLeaving, three: directory.IsDead}
	reached := map[string]bool{}
	isReached := func(endpoint string) bool { return reached[endpoint] }
	for _, wanted := range []directory.Silo{one, two, ""} {
		if from := unreached([]directory.Silo{three, one, two}, members, isReached); from != wanted {
			t.Errorf("it waits for %q, not %q", from, wanted)
		}
		reached[wanted.Endpoint()] = true
	}
}
