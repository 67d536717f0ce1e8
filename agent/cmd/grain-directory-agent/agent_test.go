package main

import (
	"bufio"
	"context"
	"errors"
	"fmt"
	"io"
	"net"
	"net/http"
	"os"
	"os/exec"
	"path/filepath"
	"regexp"
	"strconv"
	"strings"
	"sync"
	"syscall"
	"testing"
	"time"

	"agent/clients/go/graindirectory"
	"agent/servers"
)

// As another process, the test is the agent.
func TestMain(m *testing.M) {
	if os.Getenv("AS_AGENT") != "" || len(os.Args) == 2 && os.Args[1] == "guard" {
		main()
		os.Exit(0)
	}
	os.Exit(m.Run())
}

var forever = context.Background()

// cluster is etcd, NATS and agents.
type cluster struct {
	*testing.T
	folder, etcd, nats string
	ports              map[int]int
	https              map[int]int
	isCreated          bool     // the directory, or nobody is to create it
	within             []string // the words in front of an agent's, as of unshare
}

// process is an agent's process.
type process struct {
	*testing.T
	command *exec.Cmd
	socket  string
	http    string
	mu      sync.Mutex
	log     []string
}

func start(t *testing.T) *cluster {
	if os.Getenv("SILO_PROGRAM") == "" {
		t.Skip("SILO_PROGRAM names no silo's program")
	}
	return &cluster{T: t, folder: t.TempDir(), etcd: servers.Etcd(t), nats: servers.NATS(t), ports: map[int]int{}, https: map[int]int{}}
}

// agent starts the agent of a number.
func (c *cluster) agent(number int, words ...string) *process {
	c.Helper()
	if c.ports[number] == 0 {
		c.ports[number], c.https[number] = servers.Port(c), servers.Port(c)
	}
	p := &process{T: c.T, socket: filepath.Join(c.folder, fmt.Sprintf("s%d", number)), http: fmt.Sprintf("127.0.0.1:%d", c.https[number])}
	words = append([]string{fmt.Sprintf("--endpoint=127.0.0.1:%d", c.ports[number]), "--socket=" + p.socket, "--etcd=" + c.etcd,
		"--nats=" + c.nats, "--program=" + os.Getenv("SILO_PROGRAM"), "--ttl=2s", "--lock-delay=200ms", "--points=4", "--http=" + p.http}, words...)
	if !c.isCreated {
		c.create(words...)
	}
	all := append(append(append([]string{}, c.within...), os.Args[0]), words...)
	p.command = exec.Command(all[0], all[1:]...)
	p.command.Env = append(os.Environ(), "AS_AGENT=1")
	p.command.SysProcAttr = &syscall.SysProcAttr{Setpgid: true}
	out, err := p.command.StderrPipe()
	if err != nil {
		c.Fatal(err)
	}
	if err := p.command.Start(); err != nil {
		c.Fatal(err)
	}
	go func() {
		for lines := bufio.NewScanner(out); lines.Scan(); {
			p.mu.Lock()
			p.log = append(p.log, lines.Text())
			p.mu.Unlock()
		}
	}()
	c.Cleanup(func() {
		p.command.Process.Kill()
		p.command.Wait()
		p.mu.Lock()
		defer p.mu.Unlock()
		if strings.Contains(strings.Join(p.log, "\n"), "DATA RACE") {
			c.Error("the race detector found something")
		}
		if c.Failed() {
			c.Logf("agent %d:\n%s", number, strings.Join(p.log, "\n"))
		}
	})
	return p
}

// create begins the directory, as its operator does once.
func (c *cluster) create(words ...string) {
	c.Helper()
	command := exec.Command(os.Args[0], append(words, "--create")...)
	command.Env = append(os.Environ(), "AS_AGENT=1")
	if said, err := command.CombinedOutput(); err != nil {
		c.Fatalf("the directory isn't created: %v: %s", err, said)
	}
	c.isCreated = true
}

// says waits until the agent logs something.
func (p *process) says(what string, count int) {
	p.Helper()
	p.until("it logs "+what, func() bool {
		p.mu.Lock()
		defer p.mu.Unlock()
		return strings.Count(strings.Join(p.log, "\n"), what) >= count
	})
}

// count is how often it has logged something.
func (p *process) count(what string) int {
	p.mu.Lock()
	defer p.mu.Unlock()
	return strings.Count(strings.Join(p.log, "\n"), what)
}

func (p *process) until(what string, isSo func() bool) {
	p.Helper()
	until(p.T, what, isSo)
}

func until(t *testing.T, what string, isSo func() bool) {
	t.Helper()
	for end := time.Now().Add(20 * time.Second); !isSo(); time.Sleep(10 * time.Millisecond) {
		if time.Now().After(end) {
			t.Fatalf("not so: %s", what)
		}
	}
}

// silo is the silo's process of an agent.
func (p *process) silo() int {
	p.Helper()
	found := 0
	entries, _ := filepath.Glob("/proc/[0-9]*/stat")
	for _, path := range entries {
		stat, err := os.ReadFile(path)
		if err != nil {
			continue
		}
		fields := strings.Fields(string(stat[strings.LastIndexByte(string(stat), ')')+1:]))
		if len(fields) > 1 && fields[1] == strconv.Itoa(p.command.Process.Pid) {
			command, _ := os.ReadFile(filepath.Join(filepath.Dir(path), "cmdline"))
			if strings.Contains(string(command), "\x00silo\x00") {
				found, _ = strconv.Atoi(filepath.Base(filepath.Dir(path)))
			}
		}
	}
	if found == 0 {
		p.Fatal("the agent has no silo's process")
	}
	return found
}

func (p *process) dial(moved func(*graindirectory.Work)) *graindirectory.Client {
	p.Helper()
	var client *graindirectory.Client
	p.until("its socket is there", func() (is bool) {
		var err error
		client, err = graindirectory.Dial(forever, p.socket, moved)
		return err == nil
	})
	return client
}

// firm activates a grain as soon as that is possible.
func firm(t *testing.T, client *graindirectory.Client, grain string) *graindirectory.Work {
	t.Helper()
	var work *graindirectory.Work
	until(t, grain+" becomes firm", func() bool {
		var err error
		work, err = client.Activate(forever, grain)
		return err == nil
	})
	return work
}

func (p *process) get(path string) (int, string) {
	answer, err := http.Get("http://" + p.http + path)
	if err != nil {
		return 0, ""
	}
	defer answer.Body.Close()
	text, _ := io.ReadAll(answer.Body)
	return answer.StatusCode, string(text)
}

// One cluster from its start to its end: activations, finds, a move, an agent killed, a silo killed, an agent that leaves.
func TestCluster(t *testing.T) {
	c := start(t)
	one, two, three := c.agent(1), c.agent(2), c.agent(3)
	for _, p := range []*process{one, two, three} {
		p.says("is ready", 1)
	}
	arrived := make(chan *graindirectory.Work, 1)
	a, b := one.dial(nil), two.dial(func(work *graindirectory.Work) { arrived <- work })
	ann := firm(t, a, "user/ann")
	if !ann.May() || ann.Token < 3 {
		t.Errorf("%+v", ann)
	}
	var taken graindirectory.Taken
	if _, err := b.Activate(forever, "user/ann"); !errors.As(err, &taken) || string(taken) != ann.Activation {
		t.Error(err)
	}
	if at, err := three.dial(nil).Find(forever, "user/ann"); err != nil || at != ann.Activation {
		t.Error(at, err)
	}
	for path, part := range map[string]string{"/healthz": "ok ", "/metrics": `grain_directory_activations{silo="` + strings.Split(ann.Activation, "!")[0] + `",phase="firm"} 1`,
		"/ring.svg": "<svg "} {
		until(t, path, func() bool { status, text := one.get(path); return status == 200 && strings.Contains(text, part) })
	}
	members := regexp.MustCompile(`members{[^}]*} 3`)
	until(t, "there are three members", func() bool { _, text := one.get("/metrics"); return members.MatchString(text) })

	if _, err := a.Ask(forever, "named ann@one"); err != nil {
		t.Error(err)
	}
	until(t, "the second agent knows the name of the first one's application", func() bool {
		words, err := b.Ask(forever, "members")
		return err == nil && strings.Contains(strings.Join(words, " "), fmt.Sprintf("127.0.0.1:%d@1 active ann@one", c.ports[1]))
	})

	second := "127.0.0.1:" + strconv.Itoa(c.ports[2]) + "@1"
	if err := ann.Migrate(forever, second); err != nil || ann.May() {
		t.Error(err)
	}
	moved := <-arrived
	if moved.Grain != "user/ann" || !moved.May() || moved.Token < ann.Token {
		t.Errorf("%+v", moved)
	}

	two.command.Process.Kill()
	<-b.Lost
	if moved.May() {
		t.Error("its work may go on, though the agent is gone")
	}
	moved.Deactivate(forever) // and hangs up
	again := firm(t, a, "user/ann")
	if again.Token <= moved.Token {
		t.Errorf("the token behind a death is %d, and was %d", again.Token, moved.Token)
	}

	syscall.Kill(one.silo(), syscall.SIGKILL)
	<-again.Ends
	again.Deactivate(forever)
	one.says("joined", 2)
	third := three.dial(nil)
	last := firm(t, third, "user/ann")
	if last.Token <= again.Token {
		t.Errorf("the token behind a death is %d, and was %d", last.Token, again.Token)
	}

	three.command.Process.Signal(syscall.SIGTERM)
	<-last.Ends
	if !last.May() {
		t.Error("who leaves lets work end")
	}
	if err := last.Deactivate(forever); err != nil {
		t.Error(err)
	}
	<-third.Lost
	if err := three.command.Wait(); err != nil {
		t.Errorf("it left with %v", err)
	}
	firm(t, one.dial(nil), "user/ann")
}

func TestAnotherSetting(t *testing.T) {
	c := start(t)
	c.agent(1).says("is ready", 1)
	other := c.agent(2, "--points=5")
	err := other.command.Wait()
	var exit *exec.ExitError
	if !errors.As(err, &exit) || exit.ExitCode() != 2 {
		t.Error(err)
	}
	other.says("the setting points is 5 here, and 4 in the directory", 1)
}

// An agent that waits for its store ends at SIGTERM.
func TestNoStore(t *testing.T) {
	if os.Getenv("SILO_PROGRAM") == "" {
		t.Skip("SILO_PROGRAM names no silo's program")
	}
	c := &cluster{T: t, folder: t.TempDir(), etcd: "127.0.0.1:1", nats: "nats://127.0.0.1:1", isCreated: true, ports: map[int]int{}, https: map[int]int{}}
	one := c.agent(1)
	one.says("the store can't be reached", 1)
	one.command.Process.Signal(syscall.SIGTERM)
	if err := one.command.Wait(); err != nil {
		t.Error(err)
	}
}

// An agent that is frozen ends its silo when it goes on, and joins anew; meanwhile its grains go elsewhere, and with a guard its silo's process and
// applications are ended at the deadline.
func TestFrozen(t *testing.T) {
	for _, guarded := range []bool{false, true} {
		c := start(t)
		one, two := c.agent(1), c.agent(2, "--kill-applications="+strconv.FormatBool(guarded))
		one.says("is ready", 1)
		two.says("is ready", 1)
		application := exec.Command("python3", "clients/python/example.py", two.socket, "user/ann")
		application.Dir = "../.."
		application.Env = append(os.Environ(), "PYTHONDONTWRITEBYTECODE=1")
		if err := application.Start(); err != nil {
			t.Skip(err)
		}
		ended := make(chan error, 1)
		go func() { ended <- application.Wait() }()
		defer application.Process.Kill()
		a := one.dial(nil)
		until(t, "the application has it", func() bool { at, err := a.Find(forever, "user/ann fresh"); return err == nil && at != "" })
		silo := two.silo()
		two.command.Process.Signal(syscall.SIGSTOP)
		if guarded {
			select {
			case <-ended:
			case <-time.After(10 * time.Second):
				t.Fatal("the guard lets the application go on")
			}
			until(t, "the guard ends the silo's process", func() bool {
				text, err := os.ReadFile(fmt.Sprintf("/proc/%d/stat", silo))
				return err != nil || strings.Contains(string(text), ") Z ")
			})
		}
		firm(t, a, "user/ann")
		two.command.Process.Signal(syscall.SIGCONT)
		two.says("ends: ", 1)
		two.says("joined", 2)
	}
}

// An application that the guard couldn't end isn't let in: here the agent can't see it, since that has a pid namespace of its own.
func TestUnseenApplication(t *testing.T) {
	if os.Getuid() != 0 || exec.Command("unshare", "--pid", "--fork", "true").Run() != nil {
		t.Skip("a pid namespace needs root")
	}
	c := start(t)
	c.within = []string{"unshare", "--pid", "--fork", "--kill-child", "--mount-proc"}
	guarded, other := c.agent(1, "--kill-applications"), c.agent(2)
	guarded.says("is ready", 1)
	other.says("is ready", 1)
	firm(t, other.dial(nil), "user/ann")
	conn, err := net.Dial("unix", guarded.socket)
	if err != nil {
		t.Fatal(err)
	}
	conn.SetDeadline(time.Now().Add(10 * time.Second))
	if said, err := io.ReadAll(conn); err != nil || !strings.HasPrefix(string(said), "event lost ") || !strings.Contains(string(said), "pid namespace") {
		t.Errorf("it is told %q, %v", said, err)
	}
	guarded.says("an application isn't let in", 1)
}

// While the store is away for less than a deadline nothing is noticed; for longer, all are fenced, and come again with it.
func TestStoreAway(t *testing.T) {
	if os.Getenv("SILO_PROGRAM") == "" {
		t.Skip("SILO_PROGRAM names no silo's program")
	}
	port := servers.Port(t)
	client, peer := fmt.Sprintf("127.0.0.1:%d", port), fmt.Sprintf("http://127.0.0.1:%d", servers.Port(t))
	etcd := servers.Start(t, "etcd", client, "--name", "n1", "--data-dir", filepath.Join(t.TempDir(), "etcd"), "--listen-client-urls", "http://"+client,
		"--advertise-client-urls", "http://"+client, "--listen-peer-urls", peer, "--initial-advertise-peer-urls", peer, "--initial-cluster", "n1="+peer,
		"--log-level", "error")
	c := &cluster{T: t, folder: t.TempDir(), etcd: client, nats: servers.NATS(t), ports: map[int]int{}, https: map[int]int{}}
	one := c.agent(1)
	one.says("is ready", 1)
	a := one.dial(nil)
	ann := firm(t, a, "user/ann")
	etcd.Signal(syscall.SIGSTOP)
	time.Sleep(300 * time.Millisecond)
	if !ann.May() {
		t.Error("a short outage is noticed")
	}
	<-ann.Ends
	if ann.May() {
		t.Error("may go on behind the deadline")
	}
	ann.Deactivate(forever)
	etcd.Signal(syscall.SIGCONT)
	one.says("is ready", 2)
	firm(t, one.dial(nil), "user/ann")
}

// While the broker is frozen nobody dies, and activations stay; when it goes on, so does all.
func TestTransportAway(t *testing.T) {
	if os.Getenv("SILO_PROGRAM") == "" {
		t.Skip("SILO_PROGRAM names no silo's program")
	}
	port := servers.Port(t)
	endpoint := fmt.Sprintf("127.0.0.1:%d", port)
	broker := servers.Start(t, "nats-server", endpoint, "-a", "127.0.0.1", "-p", strconv.Itoa(port))
	c := &cluster{T: t, folder: t.TempDir(), etcd: servers.Etcd(t), nats: "nats://" + endpoint, ports: map[int]int{}, https: map[int]int{}}
	one, two := c.agent(1), c.agent(2)
	one.says("is ready", 1)
	two.says("is ready", 1)
	a, b := one.dial(nil), two.dial(nil)
	ann := firm(t, a, "user/ann")
	broker.Signal(syscall.SIGSTOP)
	time.Sleep(4 * time.Second)
	if !ann.May() {
		t.Error("an activation is lost with the broker")
	}
	one.says("NATS is lost", 1)
	broker.Signal(syscall.SIGCONT)
	until(t, "the other finds it", func() bool { at, err := b.Find(forever, "user/ann fresh"); return err == nil && at == ann.Activation })
	for i := 0; i < 10; i++ {
		firm(t, b, fmt.Sprintf("user/%d", i))
	}
	if status, _ := one.get("/metrics"); status != 200 || !ann.May() {
		t.Error("it is lost")
	}
}

// PostgreSQL in place of etcd.
func TestPostgres(t *testing.T) {
	if os.Getenv("SILO_PROGRAM") == "" {
		t.Skip("SILO_PROGRAM names no silo's program")
	}
	c := &cluster{T: t, folder: t.TempDir(), nats: servers.NATS(t), ports: map[int]int{}, https: map[int]int{}}
	postgres := "--postgres=" + servers.Postgres(t)
	one, two := c.agent(1, postgres), c.agent(2, postgres)
	one.says("is ready", 1)
	two.says("is ready", 1)
	b := two.dial(nil)
	ann := firm(t, b, "user/ann")
	two.command.Process.Kill()
	<-b.Lost
	ann.Deactivate(forever)
	if again := firm(t, one.dial(nil), "user/ann"); again.Token <= ann.Token {
		t.Errorf("the token behind a death is %d, and was %d", again.Token, ann.Token)
	}
	c.agent(2, postgres).says("is ready", 1)
}
