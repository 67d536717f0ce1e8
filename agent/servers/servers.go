// Package servers starts the servers that tests need, on ports of their own, and ends them with the test. Where one isn't installed the test is
// skipped.
package servers

import (
	"fmt"
	"net"
	"os"
	"os/exec"
	"path/filepath"
	"strconv"
	"strings"
	"syscall"
	"testing"
	"time"
)

// Port is a port on which nobody listens just now.
func Port(t testing.TB) int {
	listener, err := net.Listen("tcp", "127.0.0.1:0")
	if err != nil {
		t.Fatal(err)
	}
	defer listener.Close()
	return listener.Addr().(*net.TCPAddr).Port
}

// Etcd starts an etcd, and gives its endpoint.
func Etcd(t testing.TB) string {
	client, peer := fmt.Sprintf("127.0.0.1:%d", Port(t)), fmt.Sprintf("http://127.0.0.1:%d", Port(t))
	Start(t, "etcd", client, "--name", "n1", "--data-dir", filepath.Join(t.TempDir(), "etcd"), "--listen-client-urls", "http://"+client,
		"--advertise-client-urls", "http://"+client, "--listen-peer-urls", peer, "--initial-advertise-peer-urls", peer,
		"--initial-cluster", "n1="+peer, "--log-level", "error")
	return client
}

// EtcdCluster starts three etcd that are one cluster, and gives their endpoints and processes.
func EtcdCluster(t testing.TB) (endpoints []string, processes []*os.Process) {
	if _, err := exec.LookPath("etcd"); err != nil {
		t.Skip("etcd isn't installed: tools/install-agent-packages")
	}
	folder := t.TempDir()
	var peers, cluster []string
	for i := 0; i < 3; i++ {
		endpoints = append(endpoints, fmt.Sprintf("127.0.0.1:%d", Port(t)))
		peers = append(peers, fmt.Sprintf("http://127.0.0.1:%d", Port(t)))
		cluster = append(cluster, fmt.Sprintf("n%d=%s", i, peers[i]))
	}
	for i, endpoint := range endpoints {
		command := exec.Command("etcd", "--name", fmt.Sprintf("n%d", i), "--data-dir", filepath.Join(folder, fmt.Sprint(i)), "--listen-client-urls", "http://"+endpoint,
			"--advertise-client-urls", "http://"+endpoint, "--listen-peer-urls", peers[i], "--initial-advertise-peer-urls", peers[i],
			"--initial-cluster", strings.Join(cluster, ","), "--log-level", "error")
		command.SysProcAttr = &syscall.SysProcAttr{Setpgid: true}
		if err := command.Start(); err != nil {
			t.Fatal(err)
		}
		t.Cleanup(func() {
			command.Process.Kill()
			command.Wait()
		})
		processes = append(processes, command.Process)
	}
	return endpoints, processes
}

// NATS starts a NATS server, and gives its URL.
func NATS(t testing.TB, words ...string) string {
	port := Port(t)
	endpoint := fmt.Sprintf("127.0.0.1:%d", port)
	Start(t, "nats-server", endpoint, append([]string{"-a", "127.0.0.1", "-p", strconv.Itoa(port)}, words...)...)
	return "nats://" + endpoint
}

// Start starts a program, waits until it listens at an endpoint, and ends it with the test.
func Start(t testing.TB, program, endpoint string, words ...string) *os.Process {
	path, err := exec.LookPath(program)
	if err != nil {
		t.Skipf("%s isn't installed: tools/install-agent-packages", program)
	}
	said, err := os.CreateTemp(t.TempDir(), filepath.Base(program))
	if err != nil {
		t.Fatal(err)
	}
	command := exec.Command(path, words...)
	command.Stdout, command.Stderr = said, said
	command.SysProcAttr = &syscall.SysProcAttr{Setpgid: true}
	if err := command.Start(); err != nil {
		t.Fatal(err)
	}
	t.Cleanup(func() {
		command.Process.Kill()
		command.Wait()
	})
	for until := time.Now().Add(20 * time.Second); ; time.Sleep(20 * time.Millisecond) {
		if conn, err := net.Dial("tcp", endpoint); err == nil {
			conn.Close()
			return command.Process
		}
		if time.Now().After(until) {
			text, _ := os.ReadFile(said.Name())
			t.Fatalf("%s doesn't listen at %s: %s", program, endpoint, text)
		}
	}
}

// Postgres starts a PostgreSQL, and gives words by which it is reached.
func Postgres(t testing.TB) string {
	source, _ := PostgresProcess(t)
	return source
}

// PostgresProcess starts a PostgreSQL, and gives its process, too, and with it all of its group. It never runs as root: there, as the user postgres.
func PostgresProcess(t testing.TB) (string, *os.Process) {
	found, _ := filepath.Glob("/usr/lib/postgresql/*/bin")
	if len(found) == 0 {
		t.Skip("postgresql isn't installed")
	}
	bin := found[len(found)-1]
	folder := t.TempDir()
	port := Port(t)
	as := func(program string, words ...string) (string, []string) { return filepath.Join(bin, program), words }
	if os.Getuid() == 0 {
		if err := exec.Command("chown", "-R", "postgres", folder).Run(); err != nil {
			t.Skipf("there is no user postgres: %v", err)
		}
		for parent := folder; parent != "/tmp" && parent != "/"; parent = filepath.Dir(parent) {
			os.Chmod(parent, 0o755)
		}
		as = func(program string, words ...string) (string, []string) {
			return "setpriv", append([]string{"--reuid=postgres", "--regid=postgres", "--clear-groups", filepath.Join(bin, program)}, words...)
		}
	}
	data := filepath.Join(folder, "data")
	program, words := as("initdb", "-D", data, "-U", "agent", "-A", "trust", "--no-sync", "-E", "UTF8", "--locale=C")
	if said, err := exec.Command(program, words...).CombinedOutput(); err != nil {
		t.Fatalf("initdb: %v: %s", err, said)
	}
	program, words = as("postgres", "-D", data, "-p", strconv.Itoa(port), "-c", "listen_addresses=127.0.0.1", "-c", "unix_socket_directories="+folder, "-c", "fsync=off")
	process := Start(t, program, fmt.Sprintf("127.0.0.1:%d", port), words...)
	for until := time.Now().Add(20 * time.Second); exec.Command(filepath.Join(bin, "pg_isready"), "-q", "-h", "127.0.0.1", "-p", strconv.Itoa(port)).Run() != nil; {
		if time.Now().After(until) {
			t.Fatal("PostgreSQL isn't ready")
		}
		time.Sleep(50 * time.Millisecond)
	}
	return fmt.Sprintf("host=127.0.0.1 port=%d user=agent dbname=postgres sslmode=disable", port), process
}
