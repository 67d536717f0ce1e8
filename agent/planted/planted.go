//go:build !trial

// Package planted has faults that tools/partitions plants, to see that it finds them. In the program that agent/build makes there are none; they
// come with the build tag `trial`, by the variable GRAIN_DIRECTORY_PLANTED.
package planted

// The faults: deadlines never pass; an end takes longer than the margin; a change of membership is written without its conditions; parts of two
// messages of silos are put together; who has a grain is granted it again; one that migrates to `any` closes once its place is known;
// no message goes through another silo.
const (
	NoFence       = false
	SlowEnd       = false
	NoTransaction = false
	MixedParts    = false
	FirmAgain     = false
	LateClosing   = false
	NoRelay       = false
)

// Rate is how fast this machine's clock runs.
const Rate = 1.0

// InParts has all messages of silos go in parts.
const InParts = false

// Loses says whether a part is lost.
func Loses() bool { return false }
