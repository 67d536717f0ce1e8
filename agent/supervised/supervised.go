// Package supervised keeps what a supervisor's word is about: that the last agent of this endpoint has surely ended, and all applications with it.
//
// A supervisor knows the processes that it started, on its machine, since its boot; an endpoint may move to another machine. So the word is believed
// of one join alone: of the one that an agent here wrote into the unit's file, on this machine and in this boot of it. An agent keeps the file locked
// as long as it runs.
package supervised

import (
	"errors"
	"fmt"
	"os"
	"strings"
	"syscall"

	"agent/directory"
)

// Place is a boot of a machine. Nothing is believed of one that isn't known.
type Place struct{ Boot, Machine string }

// Here is where this process runs.
func Here() Place { return Place{word("/proc/sys/kernel/random/boot_id"), word("/etc/machine-id")} }

func word(path string) string {
	text, _ := os.ReadFile(path)
	if words := strings.Fields(string(text)); len(words) == 1 {
		return words[0]
	}
	return ""
}

// Join is a join that was decided: the silo, and its token, which no other join has. The zero Join is none.
type Join struct {
	Silo  directory.Silo
	Token string
}

// Is says whether this is the join of a silo that joined by a token.
func (j Join) Is(silo directory.Silo, token string) bool {
	return j != Join{} && j.Token != "" && j.Silo == silo && j.Token == token
}

// File is a unit's file. Its line is: SILO TOKEN BOOT MACHINE.
type File struct {
	file  *os.File
	place Place
}

// ErrLocked says that an agent that runs has the file.
var ErrLocked = errors.New("an agent that runs has this file")

// Open opens a file, or makes it, and locks it until this process ends.
func Open(path string, place Place) (*File, error) {
	file, err := os.OpenFile(path, os.O_RDWR|os.O_CREATE, 0o600)
	if err != nil {
		return nil, err
	}
	if err := syscall.Flock(int(file.Fd()), syscall.LOCK_EX|syscall.LOCK_NB); err != nil {
		file.Close()
		return nil, fmt.Errorf("%s: %w", path, ErrLocked)
	}
	return &File{file, place}, nil
}

// Last is the join that stands in the file, if it was written here in this boot.
func (f *File) Last() Join {
	text := make([]byte, 1024)
	size, _ := f.file.ReadAt(text, 0)
	words := strings.Fields(string(text[:size]))
	if len(words) != 4 || f.place.Boot == "" || f.place.Machine == "" || (Place{words[2], words[3]}) != f.place {
		return Join{}
	}
	return Join{directory.Silo(words[0]), words[1]}
}

// Note writes a join in place of the last. One that is half written is none.
func (f *File) Note(join Join) error {
	if err := f.file.Truncate(0); err != nil {
		return err
	}
	_, err := f.file.WriteAt([]byte(fmt.Sprintf("%s %s %s %s\n", join.Silo, join.Token, f.place.Boot, f.place.Machine)), 0)
	return err
}

// Close gives the file back.
func (f *File) Close() error { return f.file.Close() }
