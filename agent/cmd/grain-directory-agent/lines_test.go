package main

import (
	"fmt"
	"net"
	"os"
	"path/filepath"
	"testing"
	"time"

	"agent/servers"
)

// What keeps an agent from starting is told by one clear line, with the place; and it starts once that is mended.
func TestClearLines(t *testing.T) {
	c := start(t)
	folder := filepath.Join(c.folder, "run")
	one := c.agent(1, "--socket="+filepath.Join(folder, "s"), "--activations=2")
	one.says("the folder of --socket isn't there: "+folder, 1)
	time.Sleep(time.Second)
	if count := one.count("--socket"); count != 1 {
		t.Errorf("it is told %d times in a second", count)
	}
	os.Mkdir(folder, 0o700)
	one.says("is ready", 1)
	one.socket = filepath.Join(folder, "s")
	a := one.dial(nil)
	for i := 0; i < 2; i++ {
		firm(t, a, fmt.Sprintf("user/%d", i))
	}
	if _, err := a.Activate(forever, "user/more"); err == nil {
		t.Error("it has more activations than it may")
	}

	endpoint := fmt.Sprintf("127.0.0.1:%d", servers.Port(t))
	listener, err := net.Listen("tcp", endpoint)
	if err != nil {
		t.Fatal(err)
	}
	c.isCreated = false
	two := c.agent(2, "--endpoint="+endpoint, "--cluster=tcp", "--transport=tcp", "--tcp-plain")
	two.says("letters go without certificates: whoever reaches "+endpoint, 1)
	two.says(endpoint+": bind: address already in use", 1)
	listener.Close()
	two.says("is ready", 1)
}
