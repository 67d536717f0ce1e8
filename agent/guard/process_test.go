package guard

import (
	"fmt"
	"os"
	"os/exec"
	"strconv"
	"strings"
	"syscall"
	"testing"
	"time"

	"agent/applications"
	"agent/clock"
)

// As another process, the test is a guard, or says whether it can end a process.
func TestMain(m *testing.M) {
	if len(os.Args) == 2 && os.Args[1] == Word {
		Main()
		os.Exit(0)
	}
	if text := os.Getenv("CAN_END"); text != "" {
		process, _ := strconv.Atoi(text)
		fmt.Print(CanEnd(process, applications.Began(process)))
		os.Exit(0)
	}
	os.Exit(m.Run())
}

func sleeper(t *testing.T) (process int, ended chan error) {
	command := exec.Command("sleep", "60")
	if err := command.Start(); err != nil {
		t.Skip(err)
	}
	ended = make(chan error, 1)
	go func() { ended <- command.Wait() }()
	t.Cleanup(func() { command.Process.Kill() })
	return command.Process.Pid, ended
}

// A guard kills what it watches though nobody reads what it says.
func TestStuckLog(t *testing.T) {
	reader, writer, err := os.Pipe()
	if err != nil {
		t.Fatal(err)
	}
	defer reader.Close()
	fd := int(writer.Fd())
	syscall.SetNonblock(fd, true)
	for size := 4096; size > 0; size /= 2 {
		for err = nil; err == nil; _, err = syscall.Write(fd, make([]byte, size)) {
		}
	}
	syscall.SetNonblock(fd, false)
	own := os.Stderr
	os.Stderr = writer
	g, err := Start(time.Minute)
	os.Stderr = own
	writer.Close()
	if err != nil {
		t.Fatal(err)
	}
	var all []chan error
	for i := 0; i < 3; i++ {
		process, ended := sleeper(t)
		g.Watch(process, applications.Began(process))
		all = append(all, ended)
	}
	g.Until(clock.Boot().Add(100 * time.Millisecond))
	for _, ended := range all {
		select {
		case <-ended:
		case <-time.After(5 * time.Second):
			t.Fatal("a guard whose log is stuck lets an application go on")
		}
	}
	select {
	case <-g.ended:
	case <-time.After(10 * time.Second):
		t.Error("the guard waits for its log")
	}
}

// A guard that answers is left alone; one that stands still has failed within its patience and a half.
func TestStandsStill(t *testing.T) {
	const patience = 800 * time.Millisecond
	g, err := Start(patience)
	if err != nil {
		t.Fatal(err)
	}
	defer g.Done()
	tell := func(most time.Duration) (time.Duration, bool) {
		for began := time.Now(); ; time.Sleep(patience / 20) {
			g.Until(clock.Boot().Add(time.Hour))
			select {
			case <-g.Failed():
				return time.Since(began), true
			default:
			}
			if took := time.Since(began); took > most {
				return took, false
			}
		}
	}
	if took, failed := tell(3 * patience); failed {
		t.Fatalf("a guard that answers has failed after %v", took)
	}
	g.process.Signal(syscall.SIGSTOP)
	if took, failed := tell(10 * patience); !failed || took > 2*patience {
		t.Errorf("it stands still, and has failed: %v, after %v", failed, took)
	}
}

func TestAnswers(t *testing.T) {
	const patience = 10
	var a answers
	if a.isLate(1000, patience) {
		t.Error("nothing was asked")
	}
	a.told(100, 1)
	a.told(200, 5)
	if a.isLate(11, patience) || !a.isLate(12, patience) {
		t.Error("the first deadline counts")
	}
	a.heard(99, 13)
	if !a.isLate(13, patience) {
		t.Error("an answer to an earlier one counts")
	}
	a.heard(100, 13)
	if a.isLate(23, patience) || !a.isLate(24, patience) {
		t.Error("then the last one")
	}
	a.heard(200, 25)
	if a.isLate(1000, patience) {
		t.Error("all were answered")
	}
}

// Who can't be seen, or may not be signalled, can't be ended.
func TestCanEnd(t *testing.T) {
	process, _ := sleeper(t)
	if err := CanEnd(process, applications.Began(process)); err != nil {
		t.Error(err)
	}
	ended := exec.Command("true")
	if err := ended.Run(); err == nil && CanEnd(ended.Process.Pid, "") == nil {
		t.Error("one that has ended can be")
	}
	if err := CanEnd(0, ""); err == nil || !strings.Contains(err.Error(), "namespace") {
		t.Errorf("of another namespace: %v", err)
	}
	if os.Getuid() != 0 {
		t.Skip("another user's needs root")
	}
	program := t.TempDir() + "/test" // where nobody may read it
	text, _ := os.ReadFile("/proc/self/exe")
	os.WriteFile(program, text, 0o755)
	for folder := program; folder != "/tmp" && folder != "/"; folder = folder[:strings.LastIndexByte(folder, '/')] {
		os.Chmod(folder, 0o755)
		if strings.Count(folder, "/") == 1 {
			break
		}
	}
	other := exec.Command(program)
	other.Env = append(os.Environ(), "CAN_END="+strconv.Itoa(process))
	other.SysProcAttr = &syscall.SysProcAttr{Credential: &syscall.Credential{Uid: 65534, Gid: 65534}}
	if said, err := other.CombinedOutput(); err != nil {
		t.Skip(err)
	} else if !strings.Contains(string(said), "CAP_KILL") {
		t.Errorf("another user: %s", said)
	}
}
