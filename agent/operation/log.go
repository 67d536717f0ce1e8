// Package operation is what an operator sees of the agent: its options, its log and what it tells its supervisor.
package operation

import (
	"bytes"
	"fmt"
	"io"
	"strings"
	"sync"
	"time"
)

// Level is how much is logged.
type Level int

// The levels. Each logs what those before it do.
const (
	Error Level = iota
	Warning
	Info
	Debug
)

var levels = []string{"error", "warning", "info", "debug"}

// ReadLevel reads a level.
func ReadLevel(text string) (Level, error) {
	for level, name := range levels {
		if name == text {
			return Level(level), nil
		}
	}
	return 0, fmt.Errorf("%q is no level of the log: %s are", text, strings.Join(levels, ", "))
}

// Logger writes lines of the standard logger that begin with their level, `warning: ..`, and are of level info else. Set it by log.SetOutput, with
// log.SetFlags(0).
type Logger struct {
	Out     io.Writer
	Level   Level
	Journal bool // systemd's journal writes the time, and takes the level as a number in front

	mu   sync.Mutex
	silo string
}

// Named has all further lines name a silo.
func (l *Logger) Named(silo string) {
	l.mu.Lock()
	defer l.mu.Unlock()
	l.silo = silo
}

// Write takes one line.
func (l *Logger) Write(line []byte) (int, error) {
	l.mu.Lock()
	defer l.mu.Unlock()
	level, text := Info, string(bytes.TrimSpace(line))
	for i, name := range levels {
		if strings.HasPrefix(text, name+": ") {
			level, text = Level(i), text[len(name)+2:]
		}
	}
	if level > l.Level {
		return len(line), nil
	}
	text = strings.ReplaceAll(text, "\n", " ")
	if l.Journal {
		fmt.Fprintf(l.Out, "<%d>%s%s\n", 3+level+boolean(level > Warning), named(l.silo), text)
	} else {
		fmt.Fprintf(l.Out, "%s %-7s %s%s\n", time.Now().UTC().Format("2006-01-02T15:04:05.000Z"), levels[level], named(l.silo), text)
	}
	return len(line), nil
}

// boolean makes room for syslog's level notice, 5, which isn't used.
func boolean(is bool) Level {
	if is {
		return 1
	}
	return 0
}

func named(silo string) string {
	if silo == "" {
		return ""
	}
	return silo + " "
}
