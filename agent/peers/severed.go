package peers

import (
	"sort"
	"time"

	"agent/clock"
	"agent/directory"
)

// Severed is since when no letters go between one member and each that it is cut from: no third hears both.
type Severed map[directory.Silo]clock.Time

// Note takes through whom letters go to each that it is cut from, and gives those to whom none went for so long, by their texts.
func (s Severed) Note(through map[directory.Silo]directory.Silo, now clock.Time, long time.Duration) (over []directory.Silo) {
	for silo := range s {
		if by, isCut := through[silo]; !isCut || by != "" {
			delete(s, silo)
		}
	}
	for silo, by := range through {
		since, isKnown := s[silo]
		switch {
		case by != "":
		case !isKnown:
			s[silo] = now
		case now.Sub(since) > long:
			over = append(over, silo)
		}
	}
	sort.Slice(over, func(i, j int) bool { return over[i] < over[j] })
	return over
}
