package memorystore

import (
	"testing"

	"agent/membership"
	"agent/membership/storetest"
)

func TestStore(t *testing.T) {
	var last *Store
	storetest.Test(t, func(*testing.T, string) membership.Store {
		last = New()
		return last
	}, func(*testing.T) { last.Compact() })
}
