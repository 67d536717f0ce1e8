package main

import (
	"bufio"
	"context"
	"errors"
	"fmt"
	"net"
	"os"
	"os/exec"
	"strings"
	"testing"
	"time"

	"agent/clients/go/graindirectory"
)

// raw is a connection to an agent without a client.
type raw struct {
	*testing.T
	conn net.Conn
	in   *bufio.Scanner
}

func (p *process) raw() *raw {
	p.Helper()
	conn, err := net.Dial("unix", p.socket)
	if err != nil {
		p.Fatal(err)
	}
	p.Cleanup(func() { conn.Close() })
	return &raw{p.T, conn, bufio.NewScanner(conn)}
}

func (r *raw) says(lines string) { fmt.Fprint(r.conn, lines) }

// hears reads on to the answers of some tags, and gives them in the order in which they came.
func (r *raw) hears(tags ...string) (answers []string) {
	r.Helper()
	r.conn.SetReadDeadline(time.Now().Add(10 * time.Second))
	for len(answers) < len(tags) && r.in.Scan() {
		for _, tag := range tags {
			if strings.HasPrefix(r.in.Text(), tag+" ") {
				answers = append(answers, r.in.Text())
			}
		}
	}
	if len(answers) < len(tags) {
		r.Fatalf("heard only %q of %q: %v", answers, tags, r.in.Err())
	}
	return answers
}

// Who migrates a grain to `any`, and activates it at once, isn't granted it while it goes to another agent, whose application works on it.
func TestMigratesAnyAndActivatesAtOnce(t *testing.T) {
	c := start(t)
	one, two := c.agent(1), c.agent(2)
	one.says("is ready", 1)
	two.says("is ready", 1)
	a, b := one.raw(), two.raw()
	b.says("s serve\n")
	b.hears("s")
	moved := 0
	for i := 0; i < 30; i++ {
		grain := fmt.Sprintf("user/%d", i)
		a.says("0 activate " + grain + "\n")
		first := a.hears("0")[0]
		a.says("1 migrate " + grain + " any\n2 activate " + grain + "\n")
		answers := a.hears("1", "2")
		if !strings.HasPrefix(first, "0 firm ") || !strings.HasPrefix(answers[0], "1 ended ") {
			t.Errorf("%s: %s, %s", grain, first, answers)
		} else if strings.HasPrefix(answers[1], "2 firm "+strings.Fields(first)[2]+" ") {
			t.Errorf("%s is granted again while it goes to another agent: %s, %s", grain, first, answers)
		} else if strings.HasPrefix(answers[1], "2 taken ") {
			moved++
		}
	}
	if moved == 0 {
		t.Error("no grain moved")
	}
}

// A grain is one work of a connection, however often it asks for it.
func TestActivatesTwice(t *testing.T) {
	c := start(t)
	one := c.agent(1)
	one.says("is ready", 1)
	a := one.raw()
	a.says("1 activate user/ann\n2 activate user/ann\n")
	if answers := a.hears("1", "2"); !strings.HasPrefix(answers[0], "1 firm ") || !strings.HasPrefix(answers[1], "2 refused yours ") {
		t.Error(answers)
	}
	client := one.dial(nil)
	firm(t, client, "user/bob")
	var refused graindirectory.Refused
	if _, err := client.Activate(forever, "user/bob"); !errors.As(err, &refused) || refused.Code != "yours" {
		t.Error(err)
	}
}

// An application in another time namespace, which reads other deadlines than its agent means, doesn't begin.
func TestAnotherTimeNamespace(t *testing.T) {
	elsewhere := []string{"unshare", "--time", "--boottime", "1000"}
	if err := exec.Command(elsewhere[0], append(elsewhere[1:], "python3", "--version")...).Run(); err != nil {
		t.Skip("no time namespaces here, or no Python: ", err)
	}
	c := start(t)
	one := c.agent(1)
	one.says("is ready", 1)
	ctx, done := context.WithTimeout(forever, 3*time.Second)
	defer done()
	application := exec.CommandContext(ctx, elsewhere[0], append(elsewhere[1:], "python3", "clients/python/example.py", one.socket, "user/ann")...)
	application.Dir = "../.."
	application.Env = append(os.Environ(), "PYTHONDONTWRITEBYTECODE=1")
	said, _ := application.Output()
	if strings.Contains(string(said), "step") || !strings.Contains(string(said), "time namespace") {
		t.Errorf("%s", said)
	}
}
