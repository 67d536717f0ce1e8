//go:build trial

package applications

import (
	"strings"
	"testing"

	"agent/planted"
)

// The runs find faults that are planted, in seconds.
func TestPlanted(t *testing.T) {
	for name, fault := range map[string]*bool{"firm-again": &planted.FirmAgain, "late-closing": &planted.LateClosing} {
		*fault = true
		wrong := found(3000)
		*fault = false
		if wrong == "" {
			t.Errorf("%s isn't found", name)
		}
		t.Log(name+":", strings.SplitN(wrong, ", behind", 2)[0])
	}
}
