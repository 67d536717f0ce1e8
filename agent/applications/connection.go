package applications

import (
	"bufio"
	"fmt"
	"log"
	"net"
	"os"
	"strings"
	"sync/atomic"
	"syscall"
	"time"

	"agent/clock"
	"agent/directory"
	"agent/queue"
)

// Bounds of a connection: what waits to be read by it, up to where events that tell only news are added, questions without an answer, bytes of a
// line; and of connections.
const (
	mostOut          = 16 << 20
	mostNews         = 1 << 20
	mostUnread       = 256 << 10 // answers, beyond which its questions wait
	mostUnanswered   = 4096
	longestLine      = 4096
	mostApplications = 1024
	mostExpected     = 4096
	mostNames        = 64 // of all connections
	longestName      = 255
)

// outbox has the lines to a connection that wait to be written; a queue is one.
type outbox interface {
	Add(line []byte, within int) bool
	Size() int
	AwaitRoom(most int)
	Close()
}

// application is a connection of an application.
type application struct {
	conn       *net.UnixConn
	out        outbox
	number     int64
	process    int // its process, by the kernel's word
	began      string
	serves     map[string]bool // kinds of grains that move here; "" is all of them
	expects    map[string]bool // grains that may move here, and are this connection's then
	name       string          // what it calls itself, or ""
	unanswered int64           // atomic
}

// ask is a question that waits for its answer. Nobody asks where app is nil.
type ask struct {
	app *application
	tag string
}

func (k ask) answer(format string, words ...any) {
	if k.app != nil {
		atomic.AddInt64(&k.app.unanswered, -1)
		k.app.say(k.tag+" "+format, words...)
	}
}

var reasons = map[string]string{
	"802":     "no activation of this grain is held here: the directory may have it elsewhere (find)",
	"803":     "this connection doesn't hold it firm: only the one that activated it ends it",
	"804":     "this silo isn't active: ask another agent, or again once it has settled",
	"805":     "this silo has numbered as much as it ever may: restart its agent",
	"806":     "this silo has as many activations or searches as it may have: deactivate some, or use another silo",
	"807":     "the other silo isn't active, or is this one: see `event member`, or migrate to `any`",
	"901":     "this silo hasn't joined yet: ask again",
	"111":     "a grain is KIND/KEY, neither of them empty",
	"112":     "a grain's kind has up to 64 bytes, its key up to 128",
	"113":     "a grain is visible ASCII",
	"yours":   "this connection has it already, by its `firm` or `event firm`",
	"given":   "this connection has given it up meanwhile",
	"busy":    "too much waits for the silo's process: ask again, later",
	"leaving": "this silo leaves: ask another agent",
	"lost":    "this silo is fenced: end all work, hang up, and connect again",
	"what":    "no such question, or words are missing",
	"name":    "a name has up to 255 bytes, and no comma",
	"many":    "this connection expects as many grains as it may, 4096; or as many connections have names as may, 64",
	"long":    "a question has up to 4096 bytes",
}

func (k ask) refuse(code string) {
	reason := reasons[code]
	if reason == "" {
		reason = "docs/RULES.md, section Refusals, says why"
	}
	k.answer("refused %s %s", code, reason)
}

// say adds a line that has to come: answers, whose number is bounded, and what ends work.
func (p *application) say(format string, words ...any) {
	if !p.out.Add([]byte(fmt.Sprintf(format, words...)), mostOut) && p.out.Size() > mostOut/2 { // else it is closed
		log.Printf("warning: the application %d doesn't read, and a line to it is lost", p.process)
	}
}

// tell adds a line of news, unless the application doesn't read. A deadline that isn't told is an earlier one, and so does no harm.
func (p *application) tell(format string, words ...any) {
	p.out.Add([]byte(fmt.Sprintf(format, words...)), mostNews)
}

func (p *application) hasRoom() bool { return p.out.Size() < mostNews }

// Listen listens at a path, with a mode; what an agent before has left there is taken away.
func Listen(path string, mode os.FileMode) (*net.UnixListener, error) {
	if info, err := os.Lstat(path); err == nil && info.Mode()&os.ModeSocket == 0 {
		return nil, fmt.Errorf("%s is there, and no socket: name another by --socket", path)
	} else if err == nil {
		if conn, err := net.Dial("unix", path); err == nil {
			conn.Close()
			return nil, fmt.Errorf("another agent listens at %s: each needs a --socket of its own", path)
		}
		os.Remove(path)
	}
	old := syscall.Umask(0o777 &^ int(mode))
	listener, err := net.ListenUnix("unix", &net.UnixAddr{Name: path, Net: "unix"})
	syscall.Umask(old)
	if err != nil {
		return nil, fmt.Errorf("the socket for applications: %w", err)
	}
	return listener, nil
}

// Serve takes connections until the listener is closed.
func (s *Service) Serve(listener *net.UnixListener) {
	for number := int64(1); ; number++ {
		conn, err := listener.AcceptUnix()
		if err != nil {
			return
		}
		out := queue.New(mostOut)
		app := &application{conn: conn, out: out, number: number, serves: map[string]bool{}, expects: map[string]bool{}}
		app.process = processOf(conn)
		app.began = Began(app.process)
		if !s.admits(app) {
			continue
		}
		if !s.joins(app) {
			conn.Close()
			continue
		}
		go func() {
			out.Run(conn, nil)
			conn.CloseWrite() // and it is still heard when the other hangs up
		}()
		go s.serve(app)
	}
}

// joins takes a connection in, if there is room, and all isn't lost.
func (s *Service) joins(app *application) bool {
	s.watching.Lock()
	defer s.watching.Unlock()
	s.mu.Lock()
	isIn := s.over == "" && len(s.apps) < mostApplications
	if isIn {
		s.apps[app] = true
		app.tell("event valid %d", s.options.Until().Nanoseconds())
	}
	s.mu.Unlock()
	if isIn && s.options.Connected != nil {
		s.options.Connected(app.process, app.began)
	}
	return isIn
}

// serve takes the questions of a connection until it hangs up.
func (s *Service) serve(app *application) {
	defer app.conn.Close()
	defer app.out.Close()
	defer s.hungUp(app)
	reader := bufio.NewReaderSize(app.conn, longestLine)
	for {
		line, err := reader.ReadSlice('\n')
		isLong := err == bufio.ErrBufferFull
		words := strings.Fields(string(line))
		for err == bufio.ErrBufferFull {
			_, err = reader.ReadSlice('\n')
		}
		if err != nil {
			return
		}
		s.waitForRoom(app)
		if len(words) > 0 {
			atomic.AddInt64(&app.unanswered, 1)
			s.asked(ask{app, words[0]}, words[1:], isLong)
		}
	}
}

// waitForRoom lets an application wait that doesn't read its answers, or has many questions under way.
func (s *Service) waitForRoom(app *application) {
	app.out.AwaitRoom(mostUnread)
	const longest = 200 * time.Millisecond
	for wait := time.Millisecond; atomic.LoadInt64(&app.unanswered) >= mostUnanswered; {
		s.mu.Lock()
		isOver := s.over != ""
		s.mu.Unlock()
		if isOver {
			return
		}
		time.Sleep(wait)
		if wait *= 2; wait > longest {
			wait = longest
		}
	}
}

func (s *Service) asked(k ask, words []string, isLong bool) {
	verb, told := "", ""
	if len(words) > 0 {
		verb = words[0]
	}
	switch verb { // what others tell, who have locks of their own
	case "members":
		told = s.options.Members()
	case "status":
		told = s.options.Status()
	}
	s.mu.Lock()
	defer s.mu.Unlock()
	s.counts["asked "+known(verb)]++
	switch {
	case s.isOver():
		k.refuse("lost")
	case isLong:
		k.refuse("long")
	case !areVisible(words):
		k.refuse("113")
	case verb == "activate" && len(words) == 2:
		s.activate(k, words[1])
	case verb == "find" && len(words) == 2:
		s.find(k, words[1], false)
	case verb == "find" && len(words) == 3 && words[2] == "fresh":
		s.find(k, words[1], true)
	case verb == "deactivate" && len(words) == 2:
		s.close(k, words[1], "")
	case verb == "migrate" && len(words) == 3:
		s.migrate(k, words[1], words[2])
	case verb == "serve":
		if len(words) == 1 {
			k.app.serves[""] = true
		}
		for _, kind := range words[1:] {
			k.app.serves[kind] = true
		}
		k.answer("ok")
	case verb == "expect" && len(words) == 2:
		s.expect(k, words[1])
	case verb == "unexpect" && len(words) == 2:
		s.unexpect(k.app, words[1])
		k.answer("ok")
	case verb == "named" && len(words) <= 2:
		s.name(k, strings.Join(words[1:], ""))
	case verb == "members" && len(words) == 1:
		k.answer("members %s", told)
	case verb == "clock" && len(words) == 1:
		k.answer("clock %d", s.options.Now().Nanoseconds())
	case verb == "status" && len(words) == 1:
		k.answer("status %s held %d", told, len(s.grains))
	default:
		k.refuse("what")
	}
}

// migrate ends an activation by an offer to a silo, or `any`.
func (s *Service) migrate(k ask, name, to string) {
	if _, err := directory.ReadSilo(to); err != nil && directory.Silo(to) != anywhere {
		k.refuse("807")
		return
	}
	s.close(k, name, directory.Silo(to))
}

// known is a verb as metrics name it: what applications make up isn't counted by name.
func known(verb string) string {
	switch verb {
	case "activate", "find", "deactivate", "migrate", "serve", "expect", "unexpect", "named", "members", "clock", "status":
		return verb
	}
	return "other"
}

func areVisible(words []string) bool {
	for _, word := range words {
		for _, c := range []byte(word) {
			if c < 33 || c > 126 {
				return false
			}
		}
	}
	return true
}

// Lost says that all activations are lost, and why: all applications are told, and their connections are closed on this side, so that they hang up.
// That is the answer to all questions that have none.
func (s *Service) Lost(reason string) {
	s.mu.Lock()
	defer s.mu.Unlock()
	if s.over != "" {
		return
	}
	s.over = strings.ReplaceAll(reason, "\n", " ")
	for app := range s.apps {
		app.say("event lost %s", s.over)
		app.out.Close()
	}
}

// AwaitHangUp waits until all applications have hung up, as they do when their work has ended, or until a time; whether they have.
func (s *Service) AwaitHangUp(until clock.Time) bool {
	for {
		s.mu.Lock()
		rest := len(s.apps)
		s.mu.Unlock()
		if rest == 0 || s.options.Now() >= until {
			return rest == 0
		}
		time.Sleep(2 * time.Millisecond)
	}
}

// Processes are the processes of the applications, with when each began, so that no other of the same number is meant.
func (s *Service) Processes() map[int]string {
	s.mu.Lock()
	defer s.mu.Unlock()
	processes := map[int]string{}
	for app := range s.apps {
		if app.process > 1 {
			processes[app.process] = app.began
		}
	}
	return processes
}

// Kill ends the processes of the applications that haven't hung up.
func (s *Service) Kill() {
	for process, began := range s.Processes() {
		KillProcess(process, began)
	}
}

// KillProcess ends a process by signal 9, if it is still the one that began then.
func KillProcess(process int, when string) {
	if process > 1 && process != os.Getpid() && when != "" && Began(process) == when {
		syscall.Kill(process, syscall.SIGKILL) // before it is told: a log that is stuck must not hold it up
		log.Printf("warning: killed the process %d, which hadn't ended", process)
	}
}

// processOf is the process at the other end of a connection.
func processOf(conn *net.UnixConn) (process int) {
	if raw, err := conn.SyscallConn(); err == nil {
		raw.Control(func(fd uintptr) {
			if credentials, err := syscall.GetsockoptUcred(int(fd), syscall.SOL_SOCKET, syscall.SO_PEERCRED); err == nil {
				process = int(credentials.Pid)
			}
		})
	}
	return process
}

// Began is when a process began, in ticks since boot as the kernel writes it, or "" if there is none.
func Began(process int) string {
	text, err := os.ReadFile(fmt.Sprintf("/proc/%d/stat", process))
	if err != nil {
		return ""
	}
	// PID (NAME) STATE PPID ..: the start time is field 22, the 20th behind the name, which may have spaces
	fields := strings.Fields(string(text[strings.LastIndexByte(string(text), ')')+1:]))
	if len(fields) < 20 {
		return ""
	}
	return fields[19]
}
