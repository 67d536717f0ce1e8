// Package clock tells the time since this machine's boot, time asleep included. Deadlines are kept by it: Go's own monotonic clock stands still
// while a machine sleeps, and the time of day may be set.
package clock

import (
	"syscall"
	"time"
	"unsafe"

	"agent/planted"
)

// Time is a time since this machine's boot, by CLOCK_BOOTTIME. Times of two machines have nothing to do with one another.
type Time time.Duration

// Add is the time so much later.
func (t Time) Add(wait time.Duration) Time { return t + Time(wait) }

// Sub is how long t is after another time.
func (t Time) Sub(earlier Time) time.Duration { return time.Duration(t - earlier) }

// Nanoseconds is the time as applications are told it.
func (t Time) Nanoseconds() int64 { return int64(t) }

// Clock tells the time. Tests have clocks of their own.
type Clock func() Time

// Boot is the clock of this machine.
func Boot() Time {
	const boottime = 7 // CLOCK_BOOTTIME of clock_gettime(2)
	var spec syscall.Timespec
	if _, _, fault := syscall.Syscall(syscall.SYS_CLOCK_GETTIME, boottime, uintptr(unsafe.Pointer(&spec)), 0); fault != 0 {
		panic("clock_gettime(CLOCK_BOOTTIME): " + fault.Error()) // every Linux since 2.6.39 has it
	}
	if planted.Rate != 1 {
		return Time(float64(spec.Nano()) * planted.Rate)
	}
	return Time(spec.Nano())
}
