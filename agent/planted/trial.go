//go:build trial

package planted

import (
	"math/rand"
	"os"
	"strconv"
)

var planted = os.Getenv("GRAIN_DIRECTORY_PLANTED")

// The faults that can be planted.
var (
	NoFence       = planted == "no-fence"
	SlowEnd       = planted == "slow-end"
	NoTransaction = planted == "no-transaction"
	MixedParts    = planted == "mixed-parts"
	FirmAgain     = planted == "firm-again"
	LateClosing   = planted == "late-closing"
	NoRelay       = planted == "no-relay"
)

// InParts has all messages of silos go in parts, of which one in a hundred is lost, by GRAIN_DIRECTORY_IN_PARTS.
var InParts = os.Getenv("GRAIN_DIRECTORY_IN_PARTS") != ""

// Loses says whether a part is lost.
func Loses() bool { return InParts && rand.Intn(100) == 0 }

// Rate is how fast this machine's clock runs, by GRAIN_DIRECTORY_CLOCK_RATE.
var Rate = rate()

func rate() float64 {
	if rate, err := strconv.ParseFloat(os.Getenv("GRAIN_DIRECTORY_CLOCK_RATE"), 64); err == nil && rate > 0 {
		return rate
	}
	return 1
}
