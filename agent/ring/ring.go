// Package ring draws the ring as a silo sees it, from its `dump`: who owns what, and of its own ranges which are settled, in the manner of
// tools/picture, which draws the dump of a whole directory.
package ring

import (
	"encoding/json"
	"fmt"
	"html"
	"io"
	"math"
	"sort"
	"strconv"
	"strings"
)

const (
	circle = 4294967296.0
	radius = 170.0
	width  = 30.0 // of the band of owners
	margin = 24.0
	center = margin + 90 + radius
)

var tints = []string{"#4e79a7", "#f28e2b", "#59a14f", "#b07aa1", "#edc948", "#76b7b2", "#e15759", "#9c755f", "#ff9da7", "#bab0ac"}

type dump struct {
	Held []struct {
		Phase string `json:"phase"`
	} `json:"held"`
	Pieces []struct {
		Entries []json.RawMessage `json:"entries"`
		Range   string            `json:"range"`
		State   string            `json:"state"`
	} `json:"pieces"`
	Ring [][]interface{} `json:"ring"`
	Seen uint64          `json:"seen"`
	Silo string          `json:"silo"`
}

// point is where an arc of the ring begins, and whose it is.
type point struct {
	place float64
	owner string
}

// Draw draws what a silo's `dump` says.
func Draw(out io.Writer, text string) error {
	var d dump
	if err := json.Unmarshal([]byte(text), &d); err != nil {
		return fmt.Errorf("this is no dump of a silo: %w", err)
	}
	points, owners, err := pointsOf(d)
	if err != nil {
		return err
	}
	tint := map[string]string{}
	for i, owner := range owners {
		tint[owner] = tints[i%len(tints)]
	}
	rows := 8 + 2*len(owners)
	height := math.Max(2*center, 90+18*float64(rows))
	fmt.Fprintf(out, `<svg xmlns="http://www.w3.org/2000/svg" width="760" height="%.0f" font-family="sans-serif" font-size="12">`+"\n", height)
	fmt.Fprintf(out, `<title>the ring as %s sees it</title>`+"\n", html.EscapeString(d.Silo))
	fmt.Fprintf(out, `<text x="%.0f" y="30" font-size="15" font-weight="bold">version %d, as %s sees it</text>`+"\n", margin, d.Seen, html.EscapeString(d.Silo))
	for i, p := range points {
		next := points[(i+1)%len(points)].place
		arc(out, p.place, next, radius, width, tint[p.owner], "")
	}
	counts := map[string]int{}
	entries := 0
	for _, piece := range d.Pieces {
		start, size, err := rangeOf(piece.Range)
		if err != nil {
			return err
		}
		counts[piece.State]++
		entries += len(piece.Entries)
		fill := map[string]string{"settled": "#444444", "awaiting": "#dd9900"}[piece.State]
		if fill == "" {
			fill = "#cc3311"
		}
		arc(out, start, start+size, radius-width, 10, fill, fmt.Sprintf("%s: %s, %d entries", piece.Range, piece.State, len(piece.Entries)))
	}
	legend(out, d, owners, tint, counts, entries)
	fmt.Fprintln(out, "</svg>")
	return nil
}

// pointsOf gives the points of the ring in order, and the owners by name.
func pointsOf(d dump) (points []point, owners []string, err error) {
	seen := map[string]bool{}
	for _, row := range d.Ring {
		if len(row) < 2 {
			return nil, nil, fmt.Errorf("a point of the ring has %d words", len(row))
		}
		place, isNumber := row[0].(float64)
		owner, isText := row[1].(string)
		if !isNumber || !isText || place < 0 || place >= circle {
			return nil, nil, fmt.Errorf("a point of the ring can't be read: %v", row)
		}
		points = append(points, point{place, owner})
		if !seen[owner] {
			seen[owner] = true
			owners = append(owners, owner)
		}
	}
	sort.Slice(points, func(i, j int) bool { return points[i].place < points[j].place })
	sort.Strings(owners)
	return points, owners, nil
}

// rangeOf reads START+SIZE.
func rangeOf(text string) (start, size float64, err error) {
	first, second, _ := strings.Cut(text, "+")
	start, bad := strconv.ParseFloat(first, 64)
	size, worse := strconv.ParseFloat(second, 64)
	if bad != nil || worse != nil || start < 0 || start >= circle || size < 0 || size > circle {
		return 0, 0, fmt.Errorf("%q is no range", text)
	}
	return start, size, nil
}

// arc draws a part of the circle, from one place to another, as a band. Places go clockwise from the top.
func arc(out io.Writer, from, to, outer, wide float64, fill, title string) {
	for to <= from {
		to += circle
	}
	share := (to - from) / circle
	if share >= 1 {
		fmt.Fprintf(out, `<circle cx="%.1f" cy="%.1f" r="%.1f" fill="none" stroke="%s" stroke-width="%.1f">%s</circle>`+"\n",
			center, center, outer-wide/2, fill, wide, titled(title))
		return
	}
	large := 0
	if share > 0.5 {
		large = 1
	}
	x := func(place, r float64) (float64, float64) {
		angle := 2 * math.Pi * place / circle
		return center + r*math.Sin(angle), center - r*math.Cos(angle)
	}
	inner := outer - wide
	ax, ay := x(from, outer)
	bx, by := x(to, outer)
	cx, cy := x(to, inner)
	dx, dy := x(from, inner)
	fmt.Fprintf(out, `<path d="M %.2f %.2f A %.1f %.1f 0 %d 1 %.2f %.2f L %.2f %.2f A %.1f %.1f 0 %d 0 %.2f %.2f Z" fill="%s">%s</path>`+"\n",
		ax, ay, outer, outer, large, bx, by, cx, cy, inner, inner, large, dx, dy, fill, titled(title))
}

func titled(title string) string {
	if title == "" {
		return ""
	}
	return "<title>" + html.EscapeString(title) + "</title>"
}

func legend(out io.Writer, d dump, owners []string, tint map[string]string, counts map[string]int, entries int) {
	left, y := 2*center+10, 70.0
	row := func(fill, text string) {
		if fill != "" {
			fmt.Fprintf(out, `<rect x="%.0f" y="%.0f" width="12" height="12" fill="%s"/>`, left, y-11, fill)
		}
		fmt.Fprintf(out, `<text x="%.0f" y="%.0f">%s</text>`+"\n", left+18, y, html.EscapeString(text))
		y += 18
	}
	for _, owner := range owners {
		if owner == d.Silo {
			row(tint[owner], owner+" (this silo)")
		} else {
			row(tint[owner], owner)
		}
	}
	y += 10
	for _, state := range []struct{ name, fill, text string }{{"settled", "#444444", "settled"}, {"awaiting", "#dd9900", "awaiting a snapshot"},
		{"recovering", "#cc3311", "recovering"}} {
		row(state.fill, fmt.Sprintf("%d of its ranges %s", counts[state.name], state.text))
	}
	phases := map[string]int{}
	for _, one := range d.Held {
		phases[one.Phase]++
	}
	row("", fmt.Sprintf("%d entries here", entries))
	row("", fmt.Sprintf("%d activations: %d firm, %d asking, %d closing", len(d.Held), phases["firm"], phases["asking"], phases["closing"]))
}
