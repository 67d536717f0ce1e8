// Package guard ends applications, and the silo's process, where the agent itself can't: it is frozen, or was killed. The guard is a process of its
// own, of the same program, that the agent keeps telling its deadline. When that passes, it kills those that it watches, and only then says so. It
// answers each deadline, so that one that stands still is noticed.
package guard

import (
	"bufio"
	"fmt"
	"io"
	"os"
	"os/exec"
	"strconv"
	"strings"
	"sync"
	"syscall"
	"time"

	"agent/clock"
	"agent/queue"
)

// Word is the word of the command line by which the program is a guard.
const Word = "guard"

// Guard is a guard, as its agent has it.
type Guard struct {
	process *os.Process
	out     *queue.Lines
	ended   chan struct{} // its process has ended
	failed  chan struct{} // or it stands still
	once    sync.Once
	mu      sync.Mutex
	watched map[int]string
	answers answers
}

// mostLines is how many bytes may wait for the guard, which reads at once.
const mostLines = 64 << 10

// Start starts a guard, of the program that runs. One that doesn't answer for longer than patience has failed.
func Start(patience time.Duration) (*Guard, error) {
	command := exec.Command("/proc/self/exe", Word)
	command.Stderr = os.Stderr
	command.SysProcAttr = &syscall.SysProcAttr{Setpgid: true}
	in, err := command.StdinPipe()
	if err != nil {
		return nil, err
	}
	out, err := command.StdoutPipe()
	if err != nil {
		return nil, err
	}
	if err := command.Start(); err != nil {
		return nil, fmt.Errorf("the guard of the applications: %w", err)
	}
	g := &Guard{process: command.Process, out: queue.New(mostLines), ended: make(chan struct{}), failed: make(chan struct{}), watched: map[int]string{}}
	go func() {
		g.out.Run(in, nil)
		in.Close()
	}()
	go func() {
		g.hear(out)
		command.Wait()
		close(g.ended)
		g.fail()
	}()
	go g.test(patience)
	return g, nil
}

// hear takes the guard's answers, to its end.
func (g *Guard) hear(out io.Reader) {
	for lines := bufio.NewScanner(out); lines.Scan(); {
		if until, err := strconv.ParseInt(lines.Text(), 10, 64); err == nil {
			g.mu.Lock()
			g.answers.heard(clock.Time(until), clock.Boot())
			g.mu.Unlock()
		}
	}
}

// test fails a guard that doesn't answer, unless this process stood still itself: it is late twice then.
func (g *Guard) test(patience time.Duration) {
	ticks := time.NewTicker(patience / 4)
	defer ticks.Stop()
	for wasLate := false; ; {
		select {
		case <-g.failed:
			return
		case <-ticks.C:
		}
		g.mu.Lock()
		isLate := g.answers.isLate(clock.Boot(), patience)
		g.mu.Unlock()
		if isLate && wasLate {
			g.fail()
		}
		wasLate = isLate
	}
}

// answers are since when a deadline isn't answered.
type answers struct {
	asked, last clock.Time // the deadline that waits for its answer, and the last that was told
	since       clock.Time // 0: none waits
}

func (a *answers) told(until, now clock.Time) {
	if a.last = until; a.since == 0 {
		a.asked, a.since = until, now
	}
}

func (a *answers) heard(until, now clock.Time) {
	switch {
	case a.since == 0 || until < a.asked:
	case until >= a.last:
		a.since = 0
	default:
		a.asked, a.since = a.last, now
	}
}

func (a *answers) isLate(now clock.Time, patience time.Duration) bool {
	return a.since != 0 && now.Sub(a.since) > patience
}

// Failed is closed when the guard has ended, or stands still.
func (g *Guard) Failed() <-chan struct{} { return g.failed }

func (g *Guard) fail() { g.once.Do(func() { close(g.failed) }) }

// say tells the guard a line, and doesn't wait for it.
func (g *Guard) say(format string, words ...interface{}) {
	if !g.out.Add([]byte(fmt.Sprintf(format, words...)), mostLines) {
		g.fail()
	}
}

// Watch has a process watched that began then.
func (g *Guard) Watch(process int, began string) {
	g.mu.Lock()
	isKnown := g.watched[process] == began
	g.watched[process] = began
	g.mu.Unlock()
	if !isKnown && began != "" && process > 1 {
		g.say("watch %d %s", process, began)
	}
}

// Forget has a process not watched any more: it has ended its work.
func (g *Guard) Forget(process int) {
	g.mu.Lock()
	_, isKnown := g.watched[process]
	delete(g.watched, process)
	g.mu.Unlock()
	if isKnown {
		g.say("forget %d", process)
	}
}

// Until tells a later deadline.
func (g *Guard) Until(until clock.Time) {
	g.mu.Lock()
	g.answers.told(until, clock.Boot())
	g.mu.Unlock()
	g.say("until %d", until.Nanoseconds())
}

// Done ends the guard: what it watched has ended. One that doesn't end is killed.
func (g *Guard) Done() {
	g.say("done")
	g.out.Close()
	select {
	case <-g.ended:
	case <-time.After(time.Second):
		g.process.Kill()
		<-g.ended
	}
}

// CanEnd is CanEnd, of this process.
func (g *Guard) CanEnd(process int, began string) error { return CanEnd(process, began) }

// CanEnd says why this process, and so its guard, can't end another that began then; nil where it can.
func CanEnd(process int, began string) error {
	switch err := syscall.Kill(process, 0); {
	case process <= 1:
		return fmt.Errorf("its process can't be seen from here: it is of another pid namespace")
	case err == syscall.EPERM:
		return fmt.Errorf("the process %d may not be signalled: the agent needs the capability CAP_KILL, or the same user", process)
	case err != nil || began == "":
		return fmt.Errorf("the process %d can't be seen in /proc, or has ended and left its connection to another", process)
	}
	return nil
}

// Run is a guard: it reads lines, and kills by kill those that are watched when the deadline passes by the clock. It returns behind `done`, when
// all that is watched was killed, or where the agent has ended and nothing is watched. Each deadline is answered, by a line that may be lost.
func Run(in io.Reader, out io.Writer, now clock.Clock, kill func(process int, began string)) {
	lines := make(chan string)
	go func() {
		defer close(lines)
		for scanner := bufio.NewScanner(in); scanner.Scan(); {
			lines <- scanner.Text()
		}
	}()
	answers := queue.New(mostLines)
	go answers.Run(out, nil) // which may wait for an agent that is frozen
	defer answers.Close()
	watched := map[int]string{}
	until := clock.Time(1<<63 - 1)
	ticks := time.NewTicker(10 * time.Millisecond)
	defer ticks.Stop()
	for {
		select {
		case line, isOpen := <-lines:
			if line == "done" {
				return
			}
			if !isOpen {
				lines = nil // the agent has ended, and its deadline stays
			} else if take(line, watched, &until) {
				answers.Add([]byte(strconv.FormatInt(until.Nanoseconds(), 10)), mostLines)
			}
		case <-ticks.C:
		}
		if lines == nil && len(watched) == 0 {
			return
		}
		if now() >= until {
			for process, began := range watched {
				kill(process, began)
			}
			return
		}
	}
}

// take takes a line; whether it told a deadline.
func take(line string, watched map[int]string, until *clock.Time) bool {
	words := strings.Fields(line)
	switch {
	case len(words) == 3 && words[0] == "watch":
		if process, err := strconv.Atoi(words[1]); err == nil {
			watched[process] = words[2]
		}
	case len(words) == 2 && words[0] == "forget":
		if process, err := strconv.Atoi(words[1]); err == nil {
			delete(watched, process)
		}
	case len(words) == 2 && words[0] == "until":
		if at, err := strconv.ParseInt(words[1], 10, 64); err == nil {
			*until = clock.Time(at)
			return true
		}
	}
	return false
}
