package guard

import (
	"log"
	"os"
	"time"

	"agent/applications"
	"agent/clock"
	"agent/operation"
)

// Main is the guard's program. What it says may wait for whoever reads it, and what it does doesn't.
func Main() {
	behind := operation.NewBehind(os.Stderr)
	log.SetFlags(0)
	log.SetOutput(behind)
	log.SetPrefix("guard: ")
	Run(os.Stdin, os.Stdout, clock.Boot, applications.KillProcess)
	behind.Close(time.Second)
}
