package supervised

import (
	"errors"
	"os"
	"path/filepath"
	"testing"
)

var here = Place{"boot", "machine"}

// What an agent noted is believed of just that join, here and in this boot; and of nobody while an agent has the file.
func TestLast(t *testing.T) {
	path := filepath.Join(t.TempDir(), "joined")
	noted := Join{"10.0.0.1:7000@1", "abc"}
	f, err := Open(path, here)
	if err != nil || f.Last() != (Join{}) || f.Last().Is("", "") {
		t.Fatal(err, f.Last())
	}
	for _, join := range []Join{{"10.0.0.1:7000@100", "a longer one"}, noted} {
		if err := f.Note(join); err != nil {
			t.Fatal(err)
		}
	}
	if _, err := Open(path, here); !errors.Is(err, ErrLocked) {
		t.Errorf("a second agent has the file: %v", err)
	}
	f.Close()
	for place, expected := range map[Place]Join{here: noted, {"next", "machine"}: {}, {"boot", "other"}: {}, {"", "machine"}: {}, {"boot", ""}: {}} {
		f, err := Open(path, place)
		if err != nil || f.Last() != expected {
			t.Errorf("at %v: %v, %v", place, f.Last(), err)
		}
		f.Close()
	}
	for _, other := range []Join{{"10.0.0.1:7000@1", ""}, {"10.0.0.1:7000@1", "other"}, {"10.0.0.1:7000@2", "abc"}, {"", ""}} {
		if noted.Is(other.Silo, other.Token) || other.Token == "" && other.Is(other.Silo, other.Token) {
			t.Errorf("the word is about %v", other)
		}
	}
	if !noted.Is("10.0.0.1:7000@1", "abc") {
		t.Error("the word isn't about its join")
	}
}

// A file that is cut, or that no agent wrote, has no join; nor has a place that isn't known.
func TestNothing(t *testing.T) {
	path := filepath.Join(t.TempDir(), "joined")
	for _, text := range []string{"", "\n", "10.0.0.1:7000@1 abc boot", "10.0.0.1:7000@1 abc", "a b c d e"} {
		os.WriteFile(path, []byte(text), 0o600)
		f, err := Open(path, here)
		if err != nil || f.Last() != (Join{}) {
			t.Errorf("%q: %v, %v", text, f.Last(), err)
		}
		f.Close()
	}
	if _, err := Open("/nowhere/joined", here); err == nil {
		t.Error("a file is made in no folder")
	}
	if place := Here(); place.Boot == "" {
		t.Error("this boot isn't known")
	}
}
