package silo

import (
	"fmt"
	"time"

	"agent/directory"
)

// OtherProgram says that a program doesn't understand what this agent, or the other silos, write to it.
type OtherProgram struct{ Program, Line, Answer string }

func (o OtherProgram) Error() string {
	return fmt.Sprintf("%s speaks an older version of lines and messages than %d, the oldest of this agent: it answers %q by %q; --program is to be of the "+
		"agent's release", o.Program, directory.Oldest, o.Line, o.Answer)
}

// probes are lines that show which version a program speaks. A silo that hasn't joined refuses those that it understands, or finds words missing.
func probes(me directory.Silo) []string {
	return []string{"cancel a/b", "nudge a/b", "nudge ranges", "place a/b hash_based", fmt.Sprintf("letter %s %s 1 survey", me, me),
		fmt.Sprintf("letter %s %s 1 empty", me, me)}
}

// isUnknown says whether a silo's process answers so to a line that isn't of its version: 921 no such word, 927 no such kind of message, 922 and 926
// other words behind it than it knows. Of messages 922 says that words are missing, as they are here.
func isUnknown(line, answer string) bool {
	switch answer {
	case "fault 921", "fault 927", "fault 926":
		return true
	case "fault 922":
		return line[:6] != "letter"
	}
	return false
}

// Check says what is wrong with a program as a silo's, or nil: each join that comes to nothing uses up a generation.
func Check(program string, silo directory.Silo, settings directory.Settings, most int) error {
	s, err := Start(Options{Program: program, Silo: silo, Settings: settings, Most: most, Token: "none"}, deaf{})
	if err != nil {
		return err
	}
	defer s.Kill()
	said := s.says("status")
	if _, isStatus := readStatus(said); !isStatus {
		return fmt.Errorf("%s isn't a silo's process: `%s silo %s` answers `status` by %s; --program is the path of grain-directory, built by ./build",
			program, program, silo, short(said))
	}
	for _, line := range probes(silo) {
		if answer := s.says(line); isUnknown(line, answer) {
			return OtherProgram{program, line, answer}
		}
	}
	return nil
}

// says gives a process a line, and waits for its answer.
func (s *Silo) says(line string) string {
	const patience = 20 * time.Second
	answered := make(chan string, 1)
	s.send(line, func(said string) { answered <- said })
	select {
	case said := <-answered:
		return said
	case <-s.Ended():
	case <-time.After(patience):
	}
	return "nothing"
}
