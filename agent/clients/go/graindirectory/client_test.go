package graindirectory

import (
	"bufio"
	"context"
	"errors"
	"fmt"
	"net"
	"path/filepath"
	"strings"
	"syscall"
	"testing"
	"time"
)

// agent is the other end of a connection, of which a test writes the lines.
type agent struct {
	*testing.T
	conn net.Conn
	in   *bufio.Reader
}

func connect(t *testing.T, moved func(*Work)) (*agent, *Client) {
	path := filepath.Join(t.TempDir(), "s")
	listener, err := net.Listen("unix", path)
	if err != nil {
		t.Fatal(err)
	}
	t.Cleanup(func() { listener.Close() })
	dialed := make(chan *Client, 1)
	go func() {
		client, err := Dial(forever, path, moved)
		if err != nil {
			t.Error(err)
		}
		dialed <- client
	}()
	conn, err := listener.Accept()
	if err != nil {
		t.Fatal(err)
	}
	t.Cleanup(func() { conn.Close() })
	a := &agent{t, conn, bufio.NewReader(conn)}
	a.hears("1 clock")
	a.says("1 clock %d", boot())
	if moved != nil {
		a.hears("2 serve")
		a.says("2 ok")
	}
	return a, <-dialed
}

func (a *agent) says(format string, words ...any) { fmt.Fprintf(a.conn, format+"\n", words...) }

func (a *agent) hears(line string) {
	a.Helper()
	a.conn.SetReadDeadline(time.Now().Add(5 * time.Second))
	if got, err := a.in.ReadString('\n'); err != nil || got != line+"\n" {
		a.Fatalf("heard %q, not %q: %v", got, line, err)
	}
}

var forever = context.Background()

func init() { enough = int64(time.Hour) } // one question for the clock

// firm has a work of a client, which may work until a while from now.
func (a *agent) firm(client *Client, tag int, while time.Duration) *Work {
	a.Helper()
	works := make(chan *Work, 1)
	go func() {
		work, err := client.Activate(forever, "user/ann")
		if err != nil {
			a.Error(err)
		}
		works <- work
	}()
	a.hears(fmt.Sprintf("%d activate user/ann", tag))
	a.says("event valid %d", boot()+int64(while))
	a.says("%d firm S!1 user/ann token 7", tag)
	return <-works
}

func TestDeadline(t *testing.T) {
	a, client := connect(t, nil)
	work := a.firm(client, 2, 50*time.Millisecond)
	if !work.May() || work.Token != 7 || work.Activation != "S!1" {
		t.Errorf("%+v", work)
	}
	time.Sleep(60 * time.Millisecond)
	if work.May() {
		t.Error("may work behind the deadline")
	}
	a.says("event valid %d", boot()+int64(time.Minute))
	a.says("event member joined S version 9")
	go client.Find(forever, "user/bob")
	a.hears("3 find user/bob") // the deadline was read before
	a.says("3 nowhere user/bob")
	for end := time.Now().Add(5 * time.Second); !work.May(); time.Sleep(time.Millisecond) {
		if time.Now().After(end) {
			t.Fatal("a later deadline isn't taken")
		}
	}
}

// At `lost` works end, and the connection is hung up once the last has.
func TestLost(t *testing.T) {
	a, client := connect(t, nil)
	work := a.firm(client, 2, time.Minute)
	a.says("event lost cut off")
	<-work.Ends
	<-client.Lost
	if work.May() {
		t.Error("may work when all is lost")
	}
	a.conn.SetReadDeadline(time.Now().Add(50 * time.Millisecond))
	if _, err := a.in.ReadByte(); !errors.Is(err, syscall.EAGAIN) && !strings.Contains(err.Error(), "timeout") {
		t.Errorf("it hung up before its work ended: %v", err)
	}
	if err := work.Deactivate(forever); err != ErrLost {
		t.Error(err)
	}
	a.conn.SetReadDeadline(time.Now().Add(5 * time.Second))
	if _, err := a.in.ReadByte(); err == nil || strings.Contains(err.Error(), "timeout") {
		t.Errorf("it doesn't hang up: %v", err)
	}
	if _, err := client.Activate(forever, "user/ann"); err != ErrLost {
		t.Error(err)
	}
}

// At `leaving` works are to end, and may until they have.
func TestLeaving(t *testing.T) {
	a, client := connect(t, nil)
	work := a.firm(client, 2, time.Minute)
	a.says("event leaving")
	<-work.Ends
	if !work.May() {
		t.Error("may not end its work")
	}
	ended := make(chan error, 1)
	go func() { ended <- work.Migrate(forever, "any") }()
	a.hears("3 migrate user/ann any")
	a.says("3 ended user/ann absent")
	if err := <-ended; err != nil || work.May() || work.Ended != "absent" {
		t.Error(err, work.Ended)
	}
	later := a.firm(client, 4, time.Minute) // one that was granted just then ends at once
	<-later.Ends
}

// Where an end is refused, the work goes on.
func TestRefusedEnd(t *testing.T) {
	a, client := connect(t, nil)
	work := a.firm(client, 2, time.Minute)
	for tag, answer := range []string{"refused 807 the other silo isn't active", "ended user/ann removed"} {
		ended := make(chan error, 1)
		go func() { ended <- work.Migrate(forever, "any") }()
		a.hears(fmt.Sprintf("%d migrate user/ann any", tag+3))
		if work.May() {
			t.Error("it goes on while its end is asked for")
		}
		a.says("%d %s", tag+3, answer)
		if err := <-ended; (err != nil) != (tag == 0) || work.May() != (tag == 0) || (work.Ended == "") != (tag == 0) {
			t.Errorf("%s: %v %s", answer, err, work.Ended)
		}
	}
}

func TestAnswers(t *testing.T) {
	moved := make(chan *Work, 1)
	a, client := connect(t, func(work *Work) { moved <- work })
	a.says("event firm S!3 user/eve token 9")
	if work := <-moved; work.Grain != "user/eve" || work.Token != 9 {
		t.Errorf("%+v", work)
	}
	errs := make(chan error, 1)
	go func() {
		_, err := client.Activate(forever, "user/ann")
		errs <- err
	}()
	a.hears("3 activate user/ann")
	a.says("3 taken T!1 user/ann")
	if err := <-errs; err != Taken("T!1") {
		t.Error(err)
	}
	go func() {
		_, err := client.Activate(forever, "user")
		errs <- err
	}()
	a.hears("4 activate user")
	a.says("4 refused 111 a grain is KIND/KEY")
	if err := <-errs; err != (Refused{"111", "a grain is KIND/KEY"}) {
		t.Error(err)
	}
	go func() {
		at, err := client.Find(forever, "user/ann")
		if at != "T!1" {
			err = errors.New(at)
		}
		errs <- err
	}()
	a.hears("5 find user/ann")
	a.says("5 at T!1 user/ann hint")
	if err := <-errs; err != nil {
		t.Error(err)
	}
}

// The answer to `members` is long where there are many.
func TestLongAnswer(t *testing.T) {
	a, client := connect(t, nil)
	members := "members 7" + strings.Repeat(" 10.0.0.1:1000@1 active node@host", 10000)
	answers := make(chan []string, 1)
	go func() {
		words, err := client.Ask(forever, "members")
		if err != nil {
			t.Error(err)
		}
		answers <- words
	}()
	a.hears("2 members")
	a.says("2 %s", members)
	if words := <-answers; strings.Join(words, " ") != members {
		t.Errorf("%d words are heard", len(words))
	}
}
