package servers

import (
	"fmt"
	"os"
	"os/exec"
	"path/filepath"
	"testing"
)

// Restorable is an etcd of which a backup is taken, and restored in its place.
type Restorable struct {
	Endpoint     string
	peer, backup string
	process      *os.Process
}

// RestorableEtcd starts an etcd.
func RestorableEtcd(t testing.TB) *Restorable {
	r := &Restorable{Endpoint: fmt.Sprintf("127.0.0.1:%d", Port(t)), peer: fmt.Sprintf("http://127.0.0.1:%d", Port(t))}
	r.start(t, filepath.Join(t.TempDir(), "one"))
	return r
}

func (r *Restorable) start(t testing.TB, data string) {
	client := "http://" + r.Endpoint
	r.process = Start(t, "etcd", r.Endpoint, "--name", "n1", "--data-dir", data, "--listen-client-urls", client, "--advertise-client-urls", client,
		"--listen-peer-urls", r.peer, "--initial-advertise-peer-urls", r.peer, "--initial-cluster", "n1="+r.peer, "--log-level", "error")
}

// Ctl runs etcdctl.
func (r *Restorable) Ctl(t testing.TB, words ...string) {
	t.Helper()
	command := exec.Command("etcdctl", words...)
	command.Env = append(os.Environ(), "ETCDCTL_API=3")
	if out, err := command.CombinedOutput(); err != nil {
		t.Fatalf("etcdctl %v: %v: %s", words, err, out)
	}
}

// Save takes a backup, into a file.
func (r *Restorable) Save(t testing.TB, file string) {
	r.backup = file
	r.Ctl(t, "--endpoints", r.Endpoint, "snapshot", "save", file)
}

// Restore kills the etcd, and starts another from the backup in its place.
func (r *Restorable) Restore(t testing.TB) {
	r.process.Kill()
	r.process.Wait()
	data := filepath.Join(t.TempDir(), "restored")
	r.Ctl(t, "snapshot", "restore", r.backup, "--name", "n1", "--data-dir", data, "--initial-cluster", "n1="+r.peer, "--initial-advertise-peer-urls", r.peer)
	r.start(t, data)
}
