package directory

import (
	"fmt"
	"strconv"
	"strings"
)

// The versions of a directory that this agent speaks: of the lines of a silo's process, of the messages of silos and agents, and of what stands in the
// store. Who changes these so that an older agent or program can't go on beside a newer one gives the change a version of its own, in the same commit,
// and lets it wait until the directory has that version (docs/DEPLOYMENT.md, Upgrades).
const (
	Oldest    = 1 // has no word for it among the settings
	Compacted = 2 // changes may stand in a view
	Newest    = 2
)

// version is the name of the setting.
const version = "version"

// VersionOf is the version of a directory, by the text of its settings.
func VersionOf(text string) (int, error) {
	for _, word := range strings.Fields(text) {
		if name, value, _ := strings.Cut(word, "="); name == version {
			number, err := strconv.Atoi(value)
			if err != nil || number < Oldest {
				return 0, fmt.Errorf("the directory's version is %q, which is none", value)
			}
			return number, nil
		}
	}
	return Oldest, nil
}

// WithVersion is the text of settings with another version.
func WithVersion(text string, number int) string {
	words := []string{fmt.Sprintf("%s=%d", version, number)}
	for _, word := range strings.Fields(text) {
		if !strings.HasPrefix(word, version+"=") {
			words = append(words, word)
		}
	}
	return strings.Join(words, " ")
}

// OtherVersion says that a directory has a version that this agent doesn't speak.
type OtherVersion struct{ Theirs int }

func (o OtherVersion) Error() string {
	return fmt.Sprintf("the directory has version %d of lines, messages and store, and this agent speaks versions %d to %d: take an agent and a program "+
		"of a release that speaks %d (docs/DEPLOYMENT.md, Upgrades)", o.Theirs, Oldest, Newest, o.Theirs)
}

// Agree compares these settings with the text of a directory's, and gives its version; or a Difference, or an OtherVersion.
func (s Settings) Agree(text string) (int, error) {
	number, err := VersionOf(text)
	if err == nil && (number < Oldest || number > Newest) {
		err = OtherVersion{number}
	}
	if err == nil {
		err = s.Compare(text)
	}
	return number, err
}
