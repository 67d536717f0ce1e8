package transport

import (
	"strconv"
	"sync"

	"agent/clock"
	"agent/directory"
)

// How fast the numbers of a silo's requests may rise: by so many at once, as where an installation numbers all anew, and by so many a second. An owner
// serves rising numbers only, so a number that is too high has all later requests of its silo refused until the next view.
const (
	mostJump      = 1 << 16
	mostPerSecond = 50000
)

// numbers are the last numbers of silos' requests.
type numbers struct {
	mu   sync.Mutex
	last map[directory.Silo]numbered
}

type numbered struct {
	number uint64
	at     clock.Time
}

// takes notes the number of a silo's request, and says whether it may be one. The first one may be any.
func (n *numbers) takes(from directory.Silo, number uint64, now clock.Time) bool {
	n.mu.Lock()
	defer n.mu.Unlock()
	last, isKnown := n.last[from]
	if isKnown && number > last.number+mostJump+uint64(now.Sub(last.at).Seconds()*mostPerSecond) {
		return false
	}
	if n.last == nil || len(n.last) >= mostSilos {
		n.last = map[directory.Silo]numbered{}
	}
	if !isKnown || number > last.number {
		n.last[from] = numbered{number, now}
	}
	return true
}

// mostSilos is of how many silos numbers are kept.
const mostSilos = 65536

// numberOf is the number of a request that can be repeated in vain, by the words of its letter.
func numberOf(kind, word []byte) (uint64, bool) {
	switch string(kind) {
	case "register", "deregister":
		number, err := strconv.ParseUint(string(word), 10, 64)
		return number, err == nil
	}
	return 0, false
}
