package ring

import (
	"encoding/xml"
	"io"
	"strings"
	"testing"
)

const two = `{"held":[{"activation":"10.0.0.1:1000@1!1","grain":"user/ann","phase":"firm"}],"pieces":[{"entries":[{"grain":"user/ann"}],"from":"","range":"0+2147483648","state":"settled"},{"entries":[],"from":"","range":"4000000000+294967296","state":"recovering"}],"ring":[[0,"10.0.0.1:1000@1",0],[2147483648,"10.0.0.2:1000@1",0]],"seen":2,"silo":"10.0.0.1:1000@1"}`

func drawn(t *testing.T, text string) string {
	t.Helper()
	var out strings.Builder
	if err := Draw(&out, text); err != nil {
		t.Fatal(err)
	}
	reader := xml.NewDecoder(strings.NewReader(out.String()))
	for {
		if _, err := reader.Token(); err == io.EOF {
			return out.String()
		} else if err != nil {
			t.Fatalf("this is no XML: %v", err)
		}
	}
}

func TestDraw(t *testing.T) {
	text := drawn(t, two)
	for part, count := range map[string]int{"<path": 4, "0+2147483648: settled, 1 entries": 1, "version 2, as 10.0.0.1:1000@1 sees it": 1,
		"10.0.0.1:1000@1 (this silo)": 1, ">10.0.0.2:1000@1<": 1, "1 of its ranges recovering": 1, "1 activations: 1 firm, 0 asking, 0 closing": 1} {
		if strings.Count(text, part) != count {
			t.Errorf("%q is there %d times", part, strings.Count(text, part))
		}
	}
}

// One silo has the whole circle; one that has seen nothing yet has an empty ring.
func TestWholeAndEmpty(t *testing.T) {
	text := drawn(t, `{"held":[],"pieces":[{"entries":[],"from":"","range":"0+4294967296","state":"settled"}],"ring":[[0,"10.0.0.1:1000@1",0]],"seen":1,"silo":"10.0.0.1:1000@1"}`)
	if strings.Count(text, "<circle") != 2 {
		t.Error(text)
	}
	drawn(t, `{"held":[],"pieces":[],"ring":[],"seen":0,"silo":"10.0.0.1:1000@1"}`)
}

func TestNoDump(t *testing.T) {
	for _, text := range []string{"", "refused 901", `{"ring":[[1]]}`, `{"ring":[["a","b"]]}`, `{"ring":[[5000000000,"b"]]}`, `{"pieces":[{"range":"1-2"}]}`} {
		if Draw(io.Discard, text) == nil {
			t.Errorf("%q is drawn", text)
		}
	}
}
