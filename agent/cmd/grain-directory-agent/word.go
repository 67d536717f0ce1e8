package main

import (
	"log"

	"agent/directory"
	"agent/supervised"
)

// word is the supervisor's word: that whoever noted the last join in the unit's file has ended, and its applications. It holds until this agent joins;
// of its own generations the supervisor knows nothing.
type word struct {
	file *supervised.File
	last supervised.Join
}

// open reads what the word is about, if the supervisor gives it by a file.
func (w *word) open(path string) {
	if path == "" {
		return
	}
	file, err := supervised.Open(path, supervised.Here())
	if err != nil {
		log.Printf("error: --after-end: %v: whoever had this endpoint is waited for", err)
		return
	}
	w.file, w.last = file, file.Last()
}

// isAbout says whether the word is about an older generation, which joined by that token.
func (w *word) isAbout(old directory.Silo, token string) bool { return w.last.Is(old, token) }

// joined ends the word, and notes the join for the next agent.
func (w *word) joined(me directory.Silo, token string) {
	w.last = supervised.Join{}
	if w.file == nil {
		return
	}
	if err := w.file.Note(supervised.Join{Silo: me, Token: token}); err != nil {
		log.Printf("warning: --after-end: %v: the next agent here waits for this one's beat", err)
	}
}
