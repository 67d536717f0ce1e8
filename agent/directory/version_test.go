package directory

import (
	"errors"
	"testing"
)

func TestVersion(t *testing.T) {
	settings := DefaultSettings()
	words := settings.Text()
	for text, number := range map[string]int{words: Newest, words[len("version=2 "):]: Oldest, WithVersion(words, 1): 1, WithVersion(WithVersion(words, 1), 2): 2} {
		if got, err := settings.Agree(text); got != number || err != nil {
			t.Errorf("%q: %d, %v", text, got, err)
		}
	}
	var other OtherVersion
	if _, err := settings.Agree(WithVersion(words, Newest+1)); !errors.As(err, &other) || other.Theirs != Newest+1 {
		t.Error(err)
	}
	for _, text := range []string{"version=x", "version=0", "version="} {
		if _, err := settings.Agree(text); err == nil {
			t.Errorf("%q is taken", text)
		}
	}
	settings.Points++
	var difference Difference
	if _, err := settings.Agree(words); !errors.As(err, &difference) || difference.Name != "points" {
		t.Error(err)
	}
}
