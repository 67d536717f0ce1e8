package clock

import (
	"testing"
	"time"
)

func TestBootRises(t *testing.T) {
	before := Boot()
	time.Sleep(20 * time.Millisecond)
	passed := Boot().Sub(before)
	if passed < 20*time.Millisecond || passed > 20*time.Second {
		t.Errorf("%v passed in a sleep of 20 ms", passed)
	}
}
