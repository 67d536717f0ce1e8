package silo

import (
	"fmt"
	"strconv"
	"strings"

	"agent/directory"
)

// Tell tells the silo a change of membership; answer gets nil, or why the silo doesn't take it, and then there are two sequences of changes.
func (s *Silo) Tell(change directory.Change, answer func(error)) error {
	line := fmt.Sprintf("%s %d %s", change.Kind, change.Version, change.Silo)
	if change.Token != "" {
		line += " token=" + change.Token
	}
	return s.send(line, func(said string) {
		var err error
		if !strings.HasPrefix(said, "view ") && !strings.HasPrefix(said, "known ") {
			err = fmt.Errorf("the silo doesn't take the change %q: %s", line, short(said))
		}
		if answer != nil {
			answer(err)
		}
	})
}

// Begin tells the silo the view of a version in place of all changes up to it; answer gets nil, or why the silo doesn't take it.
func (s *Silo) Begin(version uint64, rows []directory.Listed, answer func(error)) error {
	words := []string{"view", strconv.FormatUint(version, 10)}
	for _, row := range rows {
		words = append(words, row.String())
	}
	return s.send(strings.Join(words, " "), func(said string) {
		if said == fmt.Sprintf("view %d begins", version) {
			answer(nil)
		} else {
			answer(fmt.Errorf("the silo doesn't begin with view %d: %s", version, short(said)))
		}
	})
}

// See has the silo see a version; answer gets whether it skipped views on the way, so that it couldn't hand ranges over.
func (s *Silo) See(version uint64, answer func(skipped bool, err error)) error {
	return s.send("see "+strconv.FormatUint(version, 10), func(said string) {
		switch {
		case strings.HasSuffix(said, " next"):
			answer(false, nil)
		case strings.HasSuffix(said, " skip"):
			answer(true, nil)
		default:
			answer(false, fmt.Errorf("the silo doesn't see version %d: %s", version, short(said)))
		}
	})
}

// Wake starts an activation.
func (s *Silo) Wake(grain string, answer func(Answer)) error { return s.ask("wake", grain, answer) }

// Close gives an activation up, whose work has ended.
func (s *Silo) Close(grain string, answer func(Answer)) error {
	return s.ask("close", grain, answer)
}

// Cancel gives an activation up that still asks. It is refused by 808 where that became firm just before, and by 802 where it was taken.
func (s *Silo) Cancel(grain string, answer func(Answer)) error {
	return s.ask("cancel", grain, answer)
}

// Offer gives an activation, whose work has ended, to another silo.
func (s *Silo) Offer(grain string, to directory.Silo, answer func(Answer)) error {
	return s.ask("offer", grain+" "+string(to), answer)
}

// Find looks a grain up. Where its answer is neither cached nor refused, Found or Nothing is said later.
func (s *Silo) Find(grain string, answer func(Answer)) error { return s.ask("find", grain, answer) }

// Forget drops the hint of where a grain is.
func (s *Silo) Forget(grain string) error { return s.ask("forget", grain, func(Answer) {}) }

// Place tells where a grain would be placed by its hash, of the silos that are active in the view that this one has seen: "" where none is.
func (s *Silo) Place(grain string, answer func(directory.Silo)) error {
	return s.send("place "+grain+" hash_based", func(said string) { // place GRAIN SILO, or place GRAIN none
		words := strings.Fields(said)
		if len(words) != 3 || words[0] != "place" || words[2] == "none" {
			answer("")
		} else {
			answer(directory.Silo(words[2]))
		}
	})
}

// ask gives a command about one grain. Words of an application are tested before: a space or a control byte would make them another line.
func (s *Silo) ask(verb, words string, answer func(Answer)) error {
	return s.send(verb+" "+words, func(said string) { answer(readAnswer(said)) })
}

func readAnswer(said string) Answer {
	words := strings.Fields(said)
	switch {
	case (words[0] == "refused" || words[0] == "fault") && len(words) > 1:
		return Answer{Refused: words[1]}
	case words[0] == "cached" && len(words) == 3:
		return Answer{Activation: words[1], Cached: true}
	case (begins[words[0]] == 2 || words[0] == "cancelled") && len(words) > 2:
		return Answer{Activation: words[1]}
	}
	return Answer{}
}

// Dump gives the silo's object among the nodes of a dump, in JSON; or "" where that is too long.
func (s *Silo) Dump(answer func(string)) error {
	return s.send("dump", func(said string) {
		if said == tooLong {
			said = ""
		}
		answer(said)
	})
}

// Status tells what the silo has and waits for. It costs the silo no more where that is much.
func (s *Silo) Status(answer func(Status)) error {
	return s.send("status", func(said string) {
		if status, isStatus := readStatus(said); isStatus {
			answer(status)
		} else {
			s.listener.Broken("the silo's process answers `status` by: " + short(said))
		}
	})
}

func readStatus(said string) (status Status, isStatus bool) {
	_, err := fmt.Sscanf(said, "status %d known %d held %d asking %d closing %d finding %d unsettled %d kept %d", &status.Seen, &status.Known,
		&status.Held, &status.Asking, &status.Closing, &status.Finding, &status.Unsettled, &status.Kept)
	return status, err == nil
}
