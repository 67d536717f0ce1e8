// Package silo runs a silo's process and speaks its lines (docs/RULES.md, "Lines of a silo's process"). Nothing else in the agent writes or
// reads such a line.
package silo

import (
	"bufio"
	"bytes"
	"errors"
	"fmt"
	"io"
	"log"
	"os/exec"
	"strconv"
	"strings"
	"sync"
	"sync/atomic"
	"syscall"

	"agent/clock"
	"agent/directory"
	"agent/queue"
	"agent/settling"
)

// Bounds of what waits for the process to read it. Letters have less room than commands, so a silo that is slow loses letters, which are sent
// again, and takes the commands that end activations.
const (
	mostPending = 64 << 20
	mostLetters = 48 << 20
)

// longestLine is how many bytes of a line are kept, its line feed among them: no silo reads a letter that is longer. A dump may be.
const longestLine = 16<<20 + 1

// tooLong is what an answer is taken for that is longer: the fault of such a line.
const tooLong = "fault 924"

// ErrBusy says that too many lines wait for the silo's process.
var ErrBusy = errors.New("too many lines wait for the silo's process")

// Options are what a process is started with.
type Options struct {
	Program  string             // the path of grain-directory, or of what does the same
	Silo     directory.Silo     //
	Settings directory.Settings //
	Most     int                // activations that it may hold; 0: as many as the program has by itself
	Token    string             // what its join was decided with: by another join of its silo the process doesn't join
	May      func() bool        // whether the silo may be told anything now; asked before each write
}

// Listener hears what a silo says by itself. Its methods are called by one goroutine, in the order of the silo's lines, and may not wait.
type Listener interface {
	// Letter is one to another silo; the line is the listener's until it returns.
	Letter(to directory.Silo, kind string, line []byte)
	// Quiet says that no more lines are there just now.
	Quiet()
	// Said is what came of a letter.
	Said(Said)
	// Broken says that the process wrote something that no rule has; it can't be relied on.
	Broken(reason string)
}

// What is what came of a letter, for the application.
type What int

// What came of letters. Noted is all that concerns no application.
const (
	Noted What = iota
	Firm
	Taken
	Ended
	Started
	Found
	Nothing
)

// Said is what came of a letter.
//
// Token belongs to Firm, and is the version that the silo had seen. It never falls for a grain, and rises across a death: hashes are served at
// rising versions only, so what became firm later did so at a version no lower; and behind a death, at a higher one.
type Said struct {
	What              What
	Grain, Activation string
	Token             uint64
	How               string // of Ended: `removed`, or `absent` where the directory had it here no more
	Kind, Effect      string // of Noted: the letter's kind, and `installed`, `noted`, ..
	Why               string // of a retry that is noted, which has a Grain: 601 to 604
}

// Answer is what a silo said to a command of an application.
type Answer struct {
	Activation string // of what was started, is closing, was offered or is cached
	Cached     bool   // of a find: this is a hint
	Refused    string // the number of a refusal or a fault, or `busy`
}

// Status is what a silo has, and what it waits for.
type Status struct {
	Seen, Known              uint64
	Held                     int // activations: of these some ask, and some close
	Asking, Closing, Finding int
	Unsettled                int // ranges
	Kept                     int // snapshots
}

// Counts are what a silo has said and read so far.
type Counts struct{ LettersIn, LettersOut, LettersLost, Nudges, Faults int64 }

// Silo is a silo's process.
type Silo struct {
	options  Options
	command  *exec.Cmd
	listener Listener
	in       *queue.Lines
	ended    chan struct{}
	wrote    int64 // atomic: when it wrote something for the last time, by clock.Boot
	counts   Counts
	altered  sync.Once // says that a letter couldn't be read
	patience *settling.Patience

	mu      sync.Mutex
	waiting []func(string) // of each line that isn't answered yet, what takes its answer: one line. nil: it is a letter
	head    int
}

// Start starts a silo's process.
func Start(options Options, listener Listener) (*Silo, error) {
	settings := options.Settings
	command := exec.Command(options.Program, "silo", string(options.Silo), "--join", options.Token, "--hashing", settings.Hashing,
		"--points", strconv.Itoa(settings.Points), "--cache", strconv.Itoa(settings.Cache))
	if options.Most > 0 {
		command.Args = append(command.Args, "--activations", strconv.Itoa(options.Most))
	}
	// A group of its own: a ^C at a terminal is for the agent, which leaves in order. When the agent ends, the silo's input does, and so the
	// silo. (Pdeathsig would be wrong: it comes when the thread ends that started the process, and Go ends threads.)
	command.SysProcAttr = &syscall.SysProcAttr{Setpgid: true}
	in, err := command.StdinPipe()
	if err != nil {
		return nil, err
	}
	out, err := command.StdoutPipe()
	if err != nil {
		return nil, err
	}
	complaints := &complaints{}
	command.Stderr = complaints
	if err := command.Start(); err != nil {
		return nil, fmt.Errorf("the silo's process doesn't start: %w: is --program the path of grain-directory, built by ./build?", err)
	}
	s := over(options, listener, in, out)
	s.command = command
	return s, nil
}

// deaf hears nothing.
type deaf struct{}

func (deaf) Letter(directory.Silo, string, []byte) {}
func (deaf) Quiet()                                {}
func (deaf) Said(Said)                             {}
func (deaf) Broken(string)                         {}

// over speaks the lines of a process over its pipes.
func over(options Options, listener Listener, in io.WriteCloser, out io.Reader) *Silo {
	if options.May == nil {
		options.May = func() bool { return true }
	}
	s := &Silo{options: options, listener: listener, in: queue.New(mostPending), ended: make(chan struct{}), wrote: int64(clock.Boot()),
		patience: settling.New(clock.Boot)}
	go func() {
		s.in.Run(in, options.May)
		in.Close()
	}()
	go s.read(out)
	return s
}

// Address is the silo's text.
func (s *Silo) Address() directory.Silo { return s.options.Silo }

// Ended is closed when the process has written its last line.
func (s *Silo) Ended() <-chan struct{} { return s.ended }

// Process is the number of the process.
func (s *Silo) Process() int { return s.command.Process.Pid }

// Wrote is when the process wrote something for the last time, be it a part of a line.
func (s *Silo) Wrote() clock.Time { return clock.Time(atomic.LoadInt64(&s.wrote)) }

// Pending is how many bytes wait for the process to read them.
func (s *Silo) Pending() int { return s.in.Size() }

// Counts are what was counted so far.
func (s *Silo) Counts() Counts {
	return Counts{atomic.LoadInt64(&s.counts.LettersIn), atomic.LoadInt64(&s.counts.LettersOut), atomic.LoadInt64(&s.counts.LettersLost),
		atomic.LoadInt64(&s.counts.Nudges), atomic.LoadInt64(&s.counts.Faults)}
}

// Kill ends the process by signal 9, and returns when it has surely ended.
func (s *Silo) Kill() {
	s.in.Close()
	syscall.Kill(-s.command.Process.Pid, syscall.SIGKILL) // its group: a script in front of the program ends with it
	<-s.ended
	s.command.Wait()
}

// send gives the process a line.
func (s *Silo) send(line string, answer func(string)) error {
	s.mu.Lock()
	defer s.mu.Unlock()
	if !s.in.Add([]byte(line), mostPending) {
		return ErrBusy
	}
	s.waiting = append(s.waiting, answer)
	return nil
}

// Receive gives the silo a letter that came, without its line feed. One that isn't to this silo isn't given, since it would have no answer;
// nor is one for which there is no room: it is lost, as letters may be.
func (s *Silo) Receive(line []byte) {
	head, ok := readHead(line)
	if !ok || head.to != string(s.options.Silo) || bytes.IndexByte(line, '\n') >= 0 {
		atomic.AddInt64(&s.counts.Faults, 1)
		return
	}
	s.receive(line)
}

func (s *Silo) receive(line []byte) {
	s.mu.Lock()
	defer s.mu.Unlock()
	if !s.in.Add(line, mostLetters) {
		atomic.AddInt64(&s.counts.LettersLost, 1)
		return
	}
	atomic.AddInt64(&s.counts.LettersIn, 1)
	s.waiting = append(s.waiting, nil)
}

// head is the beginning of a letter's line: letter FROM TO VERSION KIND.
type head struct{ to, kind string }

func readHead(line []byte) (head, bool) {
	var words [5][]byte
	rest := line
	count := 0
	for count < len(words) && len(rest) > 0 {
		end := bytes.IndexByte(rest, ' ')
		if end < 0 {
			end = len(rest)
		}
		if end > 0 {
			words[count] = rest[:end]
			count++
		}
		if end == len(rest) {
			break
		}
		rest = rest[end+1:]
	}
	if count < len(words) || string(words[0]) != "letter" {
		return head{}, false
	}
	return head{string(words[2]), string(words[4])}, true
}

// complaints are what the process says beside its lines.
type complaints struct{}

func (*complaints) Write(text []byte) (int, error) {
	log.Printf("the silo's process says: %s", strings.TrimSpace(string(text)))
	return len(text), nil
}

// read takes the lines that the process writes, to its end.
func (s *Silo) read(out io.Reader) {
	defer close(s.ended)
	reader := bufio.NewReaderSize(out, 1<<20)
	for {
		line, isWhole, err := s.readLine(reader)
		if err != nil {
			return // what has no line feed may have been cut: it isn't taken
		}
		head, isLetter := readHead(line)
		switch {
		case isLetter && isWhole:
			s.wroteLetter(head, line)
		case isLetter: // it is lost, as letters may be
			atomic.AddInt64(&s.counts.LettersLost, 1)
		default:
			if !isWhole {
				line = []byte(tooLong)
			}
			if !s.answered(line) {
				s.listener.Broken("the silo's process wrote a line that nothing asked for: " + short(string(line)))
				return
			}
		}
		if reader.Buffered() == 0 {
			s.listener.Quiet()
		}
	}
}

// readLine reads a line without its line feed; it stays until the next is read. Of one that is too long there is the beginning alone.
func (s *Silo) readLine(reader *bufio.Reader) (line []byte, isWhole bool, err error) {
	line, err = reader.ReadSlice('\n')
	atomic.StoreInt64(&s.wrote, int64(clock.Boot()))
	if err != bufio.ErrBufferFull {
		if err != nil {
			return nil, false, err
		}
		return line[:len(line)-1], true, nil
	}
	long := append([]byte(nil), line...) // a dump, or a letter of many ranges
	size := len(long)
	for err == bufio.ErrBufferFull {
		line, err = reader.ReadSlice('\n')
		atomic.StoreInt64(&s.wrote, int64(clock.Boot()))
		if size += len(line); size <= longestLine {
			long = append(long, line...)
		}
	}
	if err != nil {
		return nil, false, err
	}
	if size > longestLine {
		return long, false, nil
	}
	return long[:size-1], true, nil
}

func (s *Silo) wroteLetter(head head, line []byte) {
	atomic.AddInt64(&s.counts.LettersOut, 1)
	if head.to == string(s.options.Silo) {
		s.receive(line) // it comes back as any other
		return
	}
	s.listener.Letter(directory.Silo(head.to), head.kind, line)
}

// answered gives a line to whoever waits for it; whether anybody does.
func (s *Silo) answered(line []byte) bool {
	text := string(line)
	words := strings.Fields(text)
	answer, isWaiting := s.next()
	if !isWaiting || len(words) == 0 {
		return false
	}
	note(s.patience, words)
	if answer != nil {
		answer(text)
	} else {
		s.said(words)
	}
	return true
}

// next takes the first of those who wait for an answer.
func (s *Silo) next() (answer func(string), isThere bool) {
	s.mu.Lock()
	defer s.mu.Unlock()
	if s.head == len(s.waiting) {
		return nil, false
	}
	answer = s.waiting[s.head]
	s.waiting[s.head] = nil
	s.head++
	if s.head > 4096 && 2*s.head > len(s.waiting) {
		s.waiting = append([]func(string){}, s.waiting[s.head:]...)
		s.head = 0
	}
	return answer, true
}

// said tells what came of a letter.
func (s *Silo) said(words []string) {
	said, ok := readSaid(words)
	if !ok {
		s.listener.Broken("the silo's process answered a letter by: " + short(strings.Join(words, " ")))
		return
	}
	if words[0] == "fault" || words[0] == "refused" {
		atomic.AddInt64(&s.counts.Faults, 1)
	}
	if words[0] == "fault" {
		s.altered.Do(func() {
			log.Printf("warning: the silo can't read a message that came (%s): something alters them on their way, or sends others",
				short(strings.Join(words, " ")))
		})
	}
	s.listener.Said(said)
}

// readSaid reads the line that a letter was answered with.
func readSaid(words []string) (Said, bool) {
	switch words[0] {
	case "firm": // firm ACT GRAIN at VERSION
		if len(words) != 5 || words[3] != "at" {
			return Said{}, false
		}
		version, err := strconv.ParseUint(words[4], 10, 64)
		return Said{What: Firm, Activation: words[1], Grain: words[2], Token: version}, err == nil
	case "taken": // taken GRAIN by ACT
		return lone(Said{What: Taken}, words, 1, 3)
	case "ended": // ended ACT GRAIN removed|absent
		if len(words) != 4 {
			return Said{}, false
		}
		return Said{What: Ended, Activation: words[1], Grain: words[2], How: words[3]}, true
	case "started":
		return lone(Said{What: Started}, words, 2, 1)
	case "found":
		return lone(Said{What: Found}, words, 2, 1)
	case "nothing":
		return lone(Said{What: Nothing}, words, 1, 0)
	case "delivered": // delivered KIND EFFECT ..; delivered retry noted GRAIN CODE
		switch {
		case len(words) == 5 && words[1] == "retry" && words[2] == "noted":
			return Said{Kind: "retry", Effect: "noted", Grain: words[3], Why: words[4]}, true
		case len(words) > 2:
			return Said{Kind: words[1], Effect: words[2]}, true
		}
		return Said{}, false
	case "fault", "refused":
		return Said{Kind: words[0], Effect: strings.Join(words[1:], " ")}, true
	}
	return Said{}, false
}

// lone reads a grain, and an activation if its place isn't 0.
func lone(said Said, words []string, grain, activation int) (Said, bool) {
	if len(words) <= grain || len(words) <= activation {
		return Said{}, false
	}
	said.Grain = words[grain]
	if activation > 0 {
		said.Activation = words[activation]
	}
	return said, true
}

func short(text string) string {
	const most = 120
	if len(text) > most {
		return text[:most] + ".."
	}
	return text
}
