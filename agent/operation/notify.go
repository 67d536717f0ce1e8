package operation

import (
	"net"
	"os"
	"strconv"
	"time"
)

// Notify tells the supervisor something, as sd_notify does: READY=1, STOPPING=1, WATCHDOG=1, STATUS=... Without one it does nothing.
func Notify(state string) {
	name := os.Getenv("NOTIFY_SOCKET")
	if name == "" {
		return
	}
	if name[0] == '@' {
		name = "\x00" + name[1:]
	}
	if conn, err := net.DialUnix("unixgram", nil, &net.UnixAddr{Name: name, Net: "unixgram"}); err == nil {
		conn.Write([]byte(state))
		conn.Close()
	}
}

// WatchdogInterval is how often the supervisor wants to hear WATCHDOG=1, with room to spare; 0 where it doesn't.
func WatchdogInterval() time.Duration {
	microseconds, err := strconv.ParseInt(os.Getenv("WATCHDOG_USEC"), 10, 64)
	if err != nil || microseconds <= 0 {
		return 0
	}
	if process := os.Getenv("WATCHDOG_PID"); process != "" && process != strconv.Itoa(os.Getpid()) {
		return 0
	}
	return time.Duration(microseconds) * time.Microsecond / 4
}
