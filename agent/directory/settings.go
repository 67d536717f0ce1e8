package directory

import (
	"fmt"
	"strconv"
	"strings"
	"time"
)

// Settings are what all silos of a directory share. No silo's process can test them, so the first agent writes them into the store, and an
// agent that differs doesn't start.
type Settings struct {
	Hashing   string        // sha256, or stated for examples
	Points    int           // of each silo on the ring, 1 to 128
	Cache     int           // hints that a silo keeps, 1 to 65536
	Transport string        // nats or tcp: letters of one don't reach the other
	TTL       time.Duration // whose beat stands still for so long may be declared dead
	Version   int           // of the directory, as it was read; an agent doesn't choose it
}

// DefaultSettings are those of an agent that isn't told otherwise.
func DefaultSettings() Settings {
	return Settings{Hashing: "sha256", Points: 30, Cache: 1024, Transport: "nats", TTL: 15 * time.Second}
}

type setting struct{ name, value string }

func (s Settings) words() []setting {
	return []setting{
		{"hashing", s.Hashing}, {"points", strconv.Itoa(s.Points)}, {"cache", strconv.Itoa(s.Cache)}, {"transport", s.Transport}, {"ttl", s.TTL.String()},
	}
}

// Text is the settings as they stand in the store of a new directory.
func (s Settings) Text() string {
	words := []string{version + "=" + strconv.Itoa(Newest)}
	for _, one := range s.words() {
		words = append(words, one.name+"="+one.value)
	}
	return strings.Join(words, " ")
}

// Check says which setting is out of its range.
func (s Settings) Check() error {
	switch {
	case s.Hashing != "sha256" && s.Hashing != "stated":
		return fmt.Errorf("hashing is %q: sha256 is wanted, or stated for examples", s.Hashing)
	case s.Points < 1 || s.Points > 128:
		return fmt.Errorf("points is %d: 1 to 128 are wanted", s.Points)
	case s.Cache < 1 || s.Cache > 65536:
		return fmt.Errorf("cache is %d: 1 to 65536 are wanted", s.Cache)
	case s.Transport != "nats" && s.Transport != "tcp":
		return fmt.Errorf("transport is %q: nats or tcp is wanted", s.Transport)
	case s.TTL < time.Second || s.TTL > time.Hour:
		return fmt.Errorf("ttl is %v: 1s to 1h are wanted", s.TTL)
	}
	return nil
}

// Difference is a setting in which an agent isn't as its directory is.
type Difference struct {
	Name, Here, Theirs string
}

func (d Difference) Error() string {
	return fmt.Sprintf("the setting %s is %s here, and %s in the directory: start this agent with --%s=%s, or another directory with another --cluster",
		d.Name, d.Here, d.Theirs, d.Name, d.Theirs)
}

// Compare compares these settings with the text of a directory's: nil, or a Difference, the first there is.
func (s Settings) Compare(text string) error {
	theirs := map[string]string{}
	for _, word := range strings.Fields(text) {
		name, value, _ := strings.Cut(word, "=")
		theirs[name] = value
	}
	for _, one := range s.words() {
		if theirs[one.name] != one.value {
			return Difference{one.name, one.value, theirs[one.name]}
		}
	}
	return nil
}
