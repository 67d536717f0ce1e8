package graindirectory

import (
	"bufio"
	"context"
	"errors"
	"net"
	"path/filepath"
	"strings"
	"testing"
	"time"
)

// says waits for what a call of the client answers.
func says(t *testing.T, answers chan error) error {
	t.Helper()
	select {
	case err := <-answers:
		return err
	case <-time.After(5 * time.Second):
		t.Fatal("a call doesn't return")
		return nil
	}
}

func yours(err error) bool {
	var refused Refused
	return errors.As(err, &refused) && refused.Code == "yours"
}

// listens has a client dial, of which a test says all.
func listens(t *testing.T, dial func(path string) error) (*agent, chan error) {
	path := filepath.Join(t.TempDir(), "s")
	listener, err := net.Listen("unix", path)
	if err != nil {
		t.Fatal(err)
	}
	t.Cleanup(func() { listener.Close() })
	dialed := make(chan error, 1)
	go func() { dialed <- dial(path) }()
	conn, err := listener.Accept()
	if err != nil {
		t.Fatal(err)
	}
	t.Cleanup(func() { conn.Close() })
	return &agent{t, conn, bufio.NewReader(conn)}, dialed
}

// An agent whose clock is another one is refused, be that ahead or behind; who asks for no clock never may.
func TestAnotherClock(t *testing.T) {
	for _, ahead := range []time.Duration{1000 * time.Second, -time.Second} {
		a, dialed := listens(t, func(path string) error {
			_, err := Dial(forever, path, nil)
			return err
		})
		a.hears("1 clock")
		a.says("1 clock %d", boot()+int64(ahead))
		if err := says(t, dialed); err != ErrClock {
			t.Error(ahead, err)
		}
	}
	var client *Client
	a, dialed := listens(t, func(path string) (err error) {
		client, err = Dialer{Path: path, AnyClock: true}.Dial(forever)
		return err
	})
	if err := says(t, dialed); err != nil {
		t.Fatal(err)
	}
	if work := a.firm(client, 1, time.Minute); work.May() {
		t.Error("may work by an unknown clock")
	}
}

// The agent may have read its clock as late as it can since it was asked: a work ends that much earlier.
func TestMargin(t *testing.T) {
	var client *Client
	a, dialed := listens(t, func(path string) (err error) {
		client, err = Dial(forever, path, nil)
		return err
	})
	a.hears("1 clock")
	time.Sleep(60 * time.Millisecond)
	a.says("1 clock %d", boot())
	if err := says(t, dialed); err != nil {
		t.Fatal(err)
	}
	work := a.firm(client, 2, 50*time.Millisecond)
	if work.May() {
		t.Error("may work in the margin")
	}
	a.says("event valid %d", boot()+int64(time.Minute))
	for end := time.Now().Add(5 * time.Second); !work.May(); time.Sleep(time.Millisecond) {
		if time.Now().After(end) {
			t.Fatal("may never work")
		}
	}
}

// Whoever stood still sees that the agent has hung up, though its last lines aren't read yet.
func TestHungUp(t *testing.T) {
	a, client := connect(t, nil)
	deaf := &Client{conn: client.conn, raw: client.raw}
	deaf.until.Store(boot() + int64(time.Minute))
	work := &Work{client: deaf}
	work.goesOn.Store(true)
	if !work.May() {
		t.Fatal("may not work")
	}
	a.says("event member joined S version 9")
	a.conn.Close()
	if work.May() {
		t.Error("may work, and the agent has hung up")
	}
}

// May waits for nobody: neither for an agent that doesn't read, nor for who waits for that.
func TestMayWaitsForNobody(t *testing.T) {
	a, client := connect(t, nil)
	work := a.firm(client, 2, time.Minute)
	ctx, done := context.WithCancel(forever)
	answers := make(chan error, 300)
	for i := 0; i < 300; i++ { // more than the socket and the queue take
		go func() {
			_, err := client.Ask(ctx, "find "+strings.Repeat("x", 1<<16))
			answers <- err
		}()
	}
	time.Sleep(50 * time.Millisecond)
	may := make(chan error, 1)
	go func() {
		if !work.May() {
			may <- errors.New("may not work")
		}
		may <- nil
	}()
	if err := says(t, may); err != nil {
		t.Error(err)
	}
	done()
	for i := 0; i < 300; i++ {
		if err := says(t, answers); !errors.Is(err, context.Canceled) {
			t.Fatal(err)
		}
	}
}

// What nobody understands ends in lost: an answer that nobody asked for, and lines that aren't whole.
func TestNonsense(t *testing.T) {
	for _, line := range []string{"77 ok", "", "event", "event valid soon", "event firm S!1 user/eve token", "3 firm", "3 firm S!1 user/bob token x"} {
		a, client := connect(t, nil)
		work := a.firm(client, 2, time.Minute)
		asked := make(chan error, 1)
		go func() {
			_, err := client.Activate(forever, "user/bob")
			asked <- err
		}()
		a.hears("3 activate user/bob")
		a.says("%s", line)
		if err := says(t, asked); err != ErrLost || work.May() {
			t.Errorf("%q: %v", line, err)
		}
		<-client.Lost
		<-work.Ends
	}
}

// Of two who end a work at once one asks, and both hear the answer; while it is refused nobody may say that the grain closes.
func TestOneEnd(t *testing.T) {
	a, client := connect(t, nil)
	work := a.firm(client, 2, time.Minute)
	ends := make(chan error, 2)
	go func() { ends <- work.Migrate(forever, "S") }()
	a.hears("3 migrate user/ann S")
	go func() { ends <- work.Deactivate(forever) }()
	a.conn.SetReadDeadline(time.Now().Add(50 * time.Millisecond))
	if line, err := a.in.ReadString('\n'); err == nil {
		t.Fatalf("beside an end it asks %q", line)
	}
	a.says("3 refused 807 the other silo isn't active")
	for i := 0; i < 2; i++ {
		if err := says(t, ends); err != (Refused{"807", "the other silo isn't active"}) {
			t.Error(err)
		}
	}
	if !work.May() {
		t.Error("it is as it was")
	}
	go func() { ends <- work.Deactivate(forever) }()
	a.hears("4 deactivate user/ann")
	a.says("4 ended user/ann removed")
	if err := says(t, ends); err != nil || work.Ended != "removed" || work.May() {
		t.Error(err, work.Ended)
	}
	if err := work.Deactivate(forever); err != nil { // it has ended
		t.Error(err)
	}
}

// A grain is one work: a second Activate is refused, be the first answered or not, by this client or by the agent.
func TestOneWork(t *testing.T) {
	a, client := connect(t, nil)
	answers := make(chan error, 1)
	go func() {
		_, err := client.Activate(forever, "user/ann")
		answers <- err
	}()
	a.hears("2 activate user/ann")
	if _, err := client.Activate(forever, "user/ann"); !yours(err) {
		t.Error(err)
	}
	a.says("2 firm S!1 user/ann token 7")
	if err := says(t, answers); err != nil {
		t.Error(err)
	}
	if _, err := client.Activate(forever, "user/ann"); !yours(err) {
		t.Error(err)
	}
}

// What moves here while it is asked for is one work, too.
func TestMovesWhileItIsAskedFor(t *testing.T) {
	moved := make(chan *Work, 2)
	a, client := connect(t, func(work *Work) { moved <- work })
	answers := make(chan error, 1)
	go func() {
		_, err := client.Activate(forever, "user/ann")
		answers <- err
	}()
	a.hears("3 activate user/ann")
	a.says("event valid %d", boot()+int64(time.Minute))
	a.says("event firm S!1 user/ann token 7")
	a.says("3 refused yours it has it")
	if err := says(t, answers); !yours(err) {
		t.Error(err)
	}
	if work := <-moved; !work.May() || len(moved) > 0 {
		t.Error("it may not work, or twice")
	}
}

// Who waits no longer for a grain gives it up: no firm that crosses with that begins a work, and who asks anew waits for the end.
func TestGivingUp(t *testing.T) {
	a, client := connect(t, nil)
	a.says("event valid %d", boot()+int64(time.Minute))
	ctx, done := context.WithCancel(forever)
	answers := make(chan error, 2)
	go func() {
		_, err := client.Activate(ctx, "user/ann")
		answers <- err
	}()
	a.hears("2 activate user/ann")
	done()
	a.hears("3 deactivate user/ann")
	if err := says(t, answers); !errors.Is(err, context.Canceled) {
		t.Error(err)
	}
	a.says("2 firm S!1 user/ann token 7")
	var work *Work
	go func() {
		var err error
		work, err = client.Activate(forever, "user/ann")
		answers <- err
	}()
	time.Sleep(20 * time.Millisecond)
	a.says("3 refused busy ask again")
	a.hears("4 deactivate user/ann") // nobody waits for it: it is asked for until it comes
	a.says("4 ended user/ann removed")
	a.hears("5 activate user/ann")
	a.says("5 firm S!2 user/ann token 7")
	if err := says(t, answers); err != nil || work.Activation != "S!2" || !work.May() {
		t.Error(err)
	}
}

// Who waits no longer for an end has ended its work all the same.
func TestLeftEnd(t *testing.T) {
	a, client := connect(t, nil)
	work := a.firm(client, 2, time.Minute)
	ctx, done := context.WithCancel(forever)
	answers := make(chan error, 1)
	go func() { answers <- work.Migrate(ctx, "S") }()
	a.hears("3 migrate user/ann S")
	done()
	if err := says(t, answers); !errors.Is(err, context.Canceled) || work.May() {
		t.Error(err)
	}
	a.says("3 refused 807 it isn't active")
	a.hears("4 deactivate user/ann")
	if work.May() {
		t.Error("it goes on")
	}
	a.says("4 ended user/ann removed")
	if err := work.Deactivate(forever); err != nil || work.Ended != "removed" {
		t.Error(err, work.Ended)
	}
	a.firm(client, 5, time.Minute)
}
