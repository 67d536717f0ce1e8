package operation

import (
	"errors"
	"io"
	"log"
	"net"
	"os"
	"path/filepath"
	"strings"
	"testing"
	"time"
)

func TestConfig(t *testing.T) {
	file := filepath.Join(t.TempDir(), "agent.conf")
	os.WriteFile(file, []byte("# of this machine\nendpoint = 10.0.0.1:7000\nsocket=/run/s\n\nttl = 30s\nkill-applications = true\nsocket-mode = 0600\n"), 0o600)
	c, err := ReadConfig([]string{"--config", file, "--ttl=5s", "-points", "4", "--after-end=/run/joined"}, io.Discard)
	if err != nil {
		t.Fatal(err)
	}
	if c.Endpoint != "10.0.0.1:7000" || c.Socket != "/run/s" || c.Settings.TTL != 5*time.Second || !c.KillApplications || c.SocketMode != 0o600 ||
		c.Settings.Points != 4 || c.AfterEnd != "/run/joined" || !c.Rejoin || c.Log != Info || c.Settings.Transport != "nats" {
		t.Errorf("%+v", c)
	}
}

func TestFaultyConfigs(t *testing.T) {
	file := filepath.Join(t.TempDir(), "agent.conf")
	os.WriteFile(file, []byte("socket = /run/s\nendpoitn = 10.0.0.1:7000\n"), 0o600)
	good := []string{"--endpoint=10.0.0.1:7000", "--socket=/run/s"}
	for words, fault := range map[string]string{
		"": "--endpoint A.B.C.D:PORT", "--config=" + file: "line 2", "--config=/nowhere": "no such file", "--ttl=1": "ttl", "--ttl=1ms": "1s to 1h",
		"--points=0": "1 to 128", "--transport=mqtt": "nats or tcp", "--cluster=a/b": "letters", "x": "no option", "--nonsense": "nonsense",
		"--log=loud": "debug", "--tcp-ca=x": "belong together", "--transport=tcp": "--tcp-plain", "--etcd-cert=x": "belong together", "--silo-timeout=0s": "silo-timeout", "--socket-mode=9": "socket-mode",
		"--after-end=true": "path of a file", "--activations=0": "1 to 16777216", "--etcd-quota=0": "MiB",
	} {
		all := append([]string(nil), good...)
		if words == "" {
			all = nil
		} else {
			all = append(all, words)
		}
		if _, err := ReadConfig(all, io.Discard); err == nil || !strings.Contains(err.Error(), fault) {
			t.Errorf("%s: %v", words, err)
		}
	}
	if _, err := ReadConfig([]string{"--endpoint=10.0.0.1:0", "--socket=/s"}, io.Discard); err == nil {
		t.Error("port 0 is taken")
	}
}

func TestHelp(t *testing.T) {
	var out strings.Builder
	if _, err := ReadConfig([]string{"--help"}, &out); !errors.Is(err, ErrHelp) {
		t.Error(err)
	}
	c := NewConfig()
	for _, one := range c.options() {
		if !strings.Contains(out.String(), "  --"+one.name) {
			t.Errorf("the help lacks %s", one.name)
		}
	}
	for _, line := range strings.Split(out.String(), "\n") {
		if len(line) > 160 {
			t.Errorf("a long line: %s", line)
		}
	}
}

func TestLog(t *testing.T) {
	var out strings.Builder
	l := &Logger{Out: &out, Level: Info}
	logger := log.New(l, "", 0)
	logger.Print("first")
	l.Named("10.0.0.1:1000@1")
	logger.Print("warning: a\nb")
	logger.Print("debug: nothing")
	l.Journal, l.Level = true, Debug
	logger.Print("debug: d")
	logger.Print("error: e")
	lines := strings.Split(out.String(), "\n")
	for i, part := range []string{" info    first", " warning 10.0.0.1:1000@1 a b", "<7>10.0.0.1:1000@1 d", "<3>10.0.0.1:1000@1 e", ""} {
		if i >= len(lines) || !strings.HasSuffix(lines[i], part) {
			t.Errorf("%q, not %q", lines, part)
		}
	}
}

func TestNotify(t *testing.T) {
	name := filepath.Join(t.TempDir(), "notify")
	conn, err := net.ListenUnixgram("unixgram", &net.UnixAddr{Name: name, Net: "unixgram"})
	if err != nil {
		t.Fatal(err)
	}
	defer conn.Close()
	t.Setenv("NOTIFY_SOCKET", name)
	Notify("READY=1")
	text := make([]byte, 100)
	conn.SetReadDeadline(time.Now().Add(5 * time.Second))
	if n, err := conn.Read(text); err != nil || string(text[:n]) != "READY=1" {
		t.Errorf("%q, %v", text[:n], err)
	}
	t.Setenv("WATCHDOG_USEC", "8000000")
	if WatchdogInterval() != 2*time.Second {
		t.Error(WatchdogInterval())
	}
	t.Setenv("WATCHDOG_PID", "1")
	if WatchdogInterval() != 0 {
		t.Error("it watches another process")
	}
}

func TestCertificates(t *testing.T) {
	if settings, err := (Certificates{}).TLS(); settings != nil || err != nil {
		t.Error(settings, err)
	}
	file := filepath.Join(t.TempDir(), "ca.pem")
	os.WriteFile(file, []byte("no certificate"), 0o600)
	for _, files := range []Certificates{{Authority: "/nowhere"}, {Authority: file}, {Certificate: file, Key: file}} {
		if _, err := files.TLS(); err == nil {
			t.Errorf("%+v is taken", files)
		}
	}
}
