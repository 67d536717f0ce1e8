package natscarrier

import (
	"fmt"
	"os"
	"path/filepath"
	"testing"
	"time"

	"github.com/nats-io/nats.go"

	"agent/servers"
)

// users is the configuration that docs/DEPLOYMENT.md has.
const users = `authorization {
  users = [
    { user: orders-agents, password: "first", permissions: { publish: "grain-directory.orders.>", subscribe: "grain-directory.orders.>" } }
    { user: others, password: "second", permissions: { publish: { deny: "grain-directory.>" }, subscribe: { deny: "grain-directory.>" } } }
  ]
}
`

// With users and subjects, agents reach one another, and nobody else reaches them or hears them.
func TestUsers(t *testing.T) {
	file := filepath.Join(t.TempDir(), "nats.conf")
	os.WriteFile(file, []byte(users), 0o600)
	url := servers.NATS(t, "-c", file)
	at := func(user string) string { return "nats://" + user + "@" + url[len("nats://"):] }
	one, _, _ := open(t, at("orders-agents:first"), "orders", a)
	_, heard, _ := open(t, at("orders-agents:first"), "orders", b)
	stranger, err := nats.Connect(at("others:second"))
	if err != nil {
		t.Fatal(err)
	}
	defer stranger.Close()
	overheard, _ := stranger.SubscribeSync("grain-directory.>")
	forged := fmt.Sprintf("letter %s %s 1 find 7 user/forged", a, b)
	stranger.Publish("grain-directory.orders."+string(b), []byte("L"+forged))
	stranger.Flush()
	sent := fmt.Sprintf("letter %s %s 1 find 7 user/ann", a, b)
	one.Letter(b, "find", []byte(sent))
	one.Flush()
	select {
	case line := <-heard.last:
		if line != sent {
			t.Errorf("it hears %q", line)
		}
	case <-time.After(5 * time.Second):
		t.Fatal("agents don't reach one another")
	}
	if overheard != nil {
		if message, err := overheard.NextMsg(200 * time.Millisecond); err == nil {
			t.Errorf("a stranger hears %q", message.Data)
		}
	}
	if _, err := nats.Connect(url); err == nil {
		t.Error("one without a user is let in")
	}
}
