package silo

import (
	"errors"
	"os"
	"path/filepath"
	"strings"
	"testing"

	"agent/directory"
)

// oldProgram is a silo's process that knows no surveys.
const oldProgram = `#!/bin/sh
while read word rest; do
  case "$word $rest" in
    status*) echo "status 0 known 0 held 0 asking 0 closing 0 finding 0 unsettled 0 kept 0" ;;
    letter*survey*) echo "fault 927" ;;
    *) echo "refused 901" ;;
  esac
done
`

// A program that is older than this agent doesn't pass, and which line it doesn't understand is told.
func TestOldProgram(t *testing.T) {
	program := filepath.Join(t.TempDir(), "old")
	if err := os.WriteFile(program, []byte(oldProgram), 0o755); err != nil {
		t.Fatal(err)
	}
	var other OtherProgram
	if err := Check(program, me, directory.DefaultSettings(), 1000); !errors.As(err, &other) || !strings.Contains(other.Line, "survey") {
		t.Error(err)
	}
}

func TestIsUnknown(t *testing.T) {
	for line, answers := range map[string]map[string]bool{
		"cancel a/b":           {"refused 901": false, "fault 921": true, "fault 922": true},
		"place a/b hash_based": {"place a/b none": false, "fault 926": true},
		"letter a b 1 survey":  {"fault 922": false, "fault 927": true, "refused 901": false},
	} {
		for answer, is := range answers {
			if isUnknown(line, answer) != is {
				t.Errorf("%q, %q", line, answer)
			}
		}
	}
}
