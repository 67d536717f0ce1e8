package graindirectory

import (
	"context"
	"errors"
	"fmt"
	"strconv"
	"strings"
	"syscall"
	"time"
	"unsafe"
)

// ErrClock says that deadlines mean nothing here.
var ErrClock = errors.New("the agent's clock isn't this process's: they have to run in one time namespace")

// boot is the time since boot, in nanoseconds, by the clock of the agent's deadlines.
func boot() int64 {
	const boottime = 7 // CLOCK_BOOTTIME of clock_gettime(2)
	var now syscall.Timespec
	syscall.Syscall(syscall.SYS_CLOCK_GETTIME, boottime, uintptr(unsafe.Pointer(&now)), 0)
	return now.Nano()
}

// enough is the margin for which no better one is looked for, in nanoseconds.
var enough = int64(time.Millisecond)

// compareClocks asks for the agent's clock, which has to show a time between two looks at this one. It may be ahead of this one by no more than the
// time between the first look and its own, which is the margin of each deadline; a quicker answer makes that smaller.
func (c *Client) compareClocks(ctx context.Context) error {
	const tries = 5
	for try := 0; try < tries && c.margin.Load() > enough; try++ {
		before := boot()
		words, err := c.Ask(ctx, "clock")
		after := boot()
		if err != nil {
			return err
		}
		now, err := strconv.ParseInt(words[len(words)-1], 10, 64)
		if err != nil {
			return fmt.Errorf("the agent answers `clock` by %s", join(words))
		}
		if now < before || now > after {
			return ErrClock
		}
		if now-before < c.margin.Load() {
			c.margin.Store(now - before)
		}
	}
	return nil
}

// isHungUp asks the kernel whether the agent has hung up, or has said its last: what it said before needn't be read yet.
func (c *Client) isHungUp() bool {
	const hangUp = 0x2000 | 0x8 | 0x10 // POLLRDHUP, POLLERR and POLLHUP of poll(2)
	isIt := true
	err := c.raw.Control(func(fd uintptr) {
		asked := struct {
			fd              int32
			events, returns int16
		}{fd: int32(fd), events: 0x2000}
		var noTime syscall.Timespec
		_, _, fault := syscall.RawSyscall6(syscall.SYS_PPOLL, uintptr(unsafe.Pointer(&asked)), 1, uintptr(unsafe.Pointer(&noTime)), 0, 0, 0)
		isIt = fault != 0 && fault != syscall.EINTR || asked.returns&hangUp != 0
	})
	return isIt || err != nil
}

func join(words []string) string { return strings.Join(words, " ") }
