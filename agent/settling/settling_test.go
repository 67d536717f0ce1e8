package settling

import (
	"fmt"
	"math/rand"
	"reflect"
	"sort"
	"testing"
	"time"

	"agent/clock"
)

// trial is a patience that is asked each millisecond, of a silo to which things happen at their times.
type trial struct {
	*Patience
	at clock.Time
	ms int64
}

func newTrial() *trial {
	t := &trial{}
	t.Patience = New(func() clock.Time { return t.at })
	return t
}

// late gives the milliseconds at which each grain is to be nudged, and the ranges under their own name; happens is what happens at which.
func (t *trial) late(until int64, areUnsettled bool, happens map[int64]func()) map[string][]int64 {
	late := map[string][]int64{}
	for ; t.ms < until; t.ms++ {
		t.at = clock.Time(time.Duration(t.ms) * time.Millisecond)
		if what := happens[t.ms]; what != nil {
			what()
		}
		grains, ranges := t.Late(areUnsettled)
		for _, grain := range grains {
			late[grain] = append(late[grain], t.ms)
		}
		if ranges {
			late["ranges"] = append(late["ranges"], t.ms)
		}
	}
	return late
}

func expect(t *testing.T, got, expected map[string][]int64) {
	t.Helper()
	if !reflect.DeepEqual(got, expected) {
		t.Errorf("nudged at %v, not %v", got, expected)
	}
}

// Each grain has pauses of its own, which double; none is nudged since another is late.
func TestPausesDouble(t *testing.T) {
	p := newTrial()
	expect(t, p.late(1600, false, map[int64]func(){0: func() { p.Asked("user/ann") }, 120: func() { p.Asked("user/bob") }}),
		map[string][]int64{"user/ann": {50, 150, 350, 750, 1550}, "user/bob": {170, 270, 470, 870}})
}

func TestWhoIsAnsweredIsLeftAlone(t *testing.T) {
	p := newTrial()
	expect(t, p.late(500, false, map[int64]func(){0: func() { p.Asked("user/ann") }, 1: func() { p.Answered("user/ann"); p.Answered("user/bob") }}),
		map[string][]int64{})
}

// What is asked beside something doesn't hold its nudge up; what is left once that is answered has the shortest pause again.
func TestTwoRequestsOfAGrain(t *testing.T) {
	p := newTrial()
	expect(t, p.late(300, false, map[int64]func(){0: func() { p.Asked("user/ann") }, 40: func() { p.Asked("user/ann") }, 60: func() { p.Answered("user/ann") }}),
		map[string][]int64{"user/ann": {50, 110, 210}})
	p.Answered("user/ann")
	expect(t, p.late(900, false, nil), map[string][]int64{})
}

// Where the silo sends something else, or all again, its pauses begin anew.
func TestSentAgain(t *testing.T) {
	for _, again := range []func(p *Patience){func(p *Patience) { p.AskedOtherwise("user/ann") }, (*Patience).Anew} {
		p := newTrial()
		expect(t, p.late(400, false, map[int64]func(){0: func() { p.Asked("user/ann") }, 200: func() { again(p.Patience) }}),
			map[string][]int64{"user/ann": {50, 150, 250, 350}})
	}
	p := newTrial()
	p.AskedOtherwise("user/ann") // nothing was asked
	expect(t, p.late(100, false, nil), map[string][]int64{})
}

// A pause has four round trips at least. A longer one counts at once, and a shorter one for an eighth.
func TestRoundTrips(t *testing.T) {
	p := newTrial()
	expect(t, p.late(400, false, map[int64]func(){0: func() { p.Asked("a/a") }, 32: func() { p.Answered("a/a"); p.Asked("b/b") },
		200: func() { p.Answered("b/b") }, // sent at 160, so it took 40
		201: func() { p.Asked("c/c"); p.Answered("c/c"); p.Asked("d/d") }}),
		map[string][]int64{"b/b": {160}, "d/d": {341}}) // 40 - 40/8 = 35, and four times that
}

// Of many asked at once, whose answers come one by one, none is taken for lost; one that is lost is nudged in its time.
func TestBacklog(t *testing.T) {
	p := newTrial()
	happens := map[int64]func(){0: func() {
		for i := 0; i < 101; i++ {
			p.Asked(fmt.Sprintf("user/%d", i))
		}
	}}
	for i := 0; i < 100; i++ {
		grain := fmt.Sprintf("user/%d", i)
		happens[int64(i+1)] = func() { p.Answered(grain) }
	}
	expect(t, p.late(1000, false, happens), map[string][]int64{"user/100": {400}})
}

// The ranges have pauses of their own, which begin anew where they got on. Once they are settled those of grains do, too.
func TestRanges(t *testing.T) {
	p := newTrial()
	expect(t, p.late(500, true, map[int64]func(){0: func() { p.Asked("user/ann") }, 400: p.GotOn}),
		map[string][]int64{"ranges": {50, 150, 350, 450}, "user/ann": {50, 150, 350}})
	expect(t, p.late(700, false, map[int64]func(){600: p.GotOn}), map[string][]int64{"user/ann": {550, 650}})
	expect(t, p.late(800, true, nil), map[string][]int64{"ranges": {750}})
}

func TestPausesEnd(t *testing.T) {
	p := newTrial()
	late := p.late(120000, false, map[int64]func(){0: func() { p.Asked("user/ann") }})["user/ann"]
	if last := late[len(late)-1] - late[len(late)-2]; last != Longest.Milliseconds() {
		t.Errorf("nudged at %v", late)
	}
	for i := 0; i < 2; i++ { // however long a round trip is, the first pause is a small part of the longest
		p.Answered("user/ann")
		p.Asked("user/ann")
		p.at += clock.Time(time.Hour)
	}
	p.Answered("user/ann")
	p.Asked("user/ann")
	p.at += clock.Time(2*time.Second - 1)
	if late, _ := p.Late(false); len(late) != 0 {
		t.Error("nudged before 2 s")
	}
	p.at++
	if late, _ := p.Late(false); len(late) != 1 {
		t.Error("not nudged after 2 s")
	}
}

func TestLook(t *testing.T) {
	p := newTrial()
	looks := func(expected time.Duration) {
		t.Helper()
		if look := p.Look(); look != expected {
			t.Errorf("looked at after %v, not %v", look, expected)
		}
	}
	looks(50 * time.Millisecond)
	p.Asked("user/ann")
	looks(10 * time.Millisecond)
	p.at = clock.Time(50 * time.Millisecond)
	p.Answered("user/ann")
	looks(50 * time.Millisecond)
	p.Late(true)
	looks(40 * time.Millisecond)
	p.Late(false)
	p.Asked("user/ann")
	p.at = clock.Time(time.Second)
	p.Answered("user/ann")
	p.Asked("user/ann")
	looks(50 * time.Millisecond)
}

// walk is the same patience with grains, by a walk over all that wait at each look.
type walk struct {
	trip   time.Duration
	grains map[string]*walked
}

type walked struct {
	requests int
	sent     clock.Time
	pauses   time.Duration // the first one is 1 of the shortest
}

func (k *walk) shortest() time.Duration {
	switch {
	case 4*k.trip < 50*time.Millisecond:
		return 50 * time.Millisecond
	case 4*k.trip > 2*time.Second:
		return 2 * time.Second
	}
	return 4 * k.trip
}

func (k *walk) asked(grain string, now clock.Time) {
	if k.grains[grain] == nil {
		k.grains[grain] = &walked{sent: now, pauses: 1}
	}
	k.grains[grain].requests++
}

func (k *walk) answered(grain string, now clock.Time) {
	w := k.grains[grain]
	if w == nil {
		return
	}
	if w.requests--; w.requests > 0 {
		w.sent, w.pauses = now, 1
		return
	}
	delete(k.grains, grain)
	if took := now.Sub(w.sent); took > k.trip {
		k.trip = took
	} else {
		k.trip -= (k.trip - took) / 8
	}
}

func (k *walk) late(now clock.Time) (late []string) {
	for grain, w := range k.grains {
		pause := w.pauses * k.shortest()
		if pause > 16*time.Second {
			pause = 16 * time.Second
		}
		if now.Sub(w.sent) < pause {
			continue
		}
		late = append(late, grain)
		if w.sent = now; pause < 16*time.Second {
			w.pauses *= 2
		}
	}
	sort.Strings(late)
	return late
}

// Whatever happens, each look tells what a walk over all that wait would tell.
func TestLooksTellAll(t *testing.T) {
	for seed := int64(1); seed <= 20; seed++ {
		random := rand.New(rand.NewSource(seed))
		p, k := newTrial(), &walk{grains: map[string]*walked{}}
		mostlyAnswers := random.Intn(8)
		for look := 0; look < 3000; look++ {
			p.at += clock.Time(time.Duration(random.Intn(100)) * time.Millisecond)
			for i := random.Intn(4); i > 0; i-- {
				grain := fmt.Sprintf("user/%d", random.Intn(30))
				switch what := random.Intn(10); {
				case what < 4:
					p.Asked(grain)
					k.asked(grain, p.at)
				case what == 8:
					p.AskedOtherwise(grain)
					if w := k.grains[grain]; w != nil {
						w.sent, w.pauses = p.at, 1
					}
				case what == 9 && random.Intn(30) == 0:
					p.Anew()
					for _, w := range k.grains {
						w.sent, w.pauses = p.at, 1
					}
				case random.Intn(8) <= mostlyAnswers:
					p.Answered(grain)
					k.answered(grain, p.at)
				}
			}
			late, _ := p.Late(false)
			sort.Strings(late)
			if expected := k.late(p.at); !reflect.DeepEqual(late, expected) {
				t.Fatalf("seed %d, at %v: nudged are %v, not %v", seed, time.Duration(p.at), late, expected)
			}
		}
	}
}

// A look costs what is late: however many wait, ten thousand looks at which none is late take no time to speak of.
func TestLooksAtMany(t *testing.T) {
	p := newTrial()
	for i := 0; i < 100000; i++ {
		p.Asked(fmt.Sprintf("user/%d", i))
	}
	p.at = clock.Time(Shortest - 1)
	began := time.Now()
	for i := 0; i < 10000; i++ {
		if late, _ := p.Late(false); len(late) > 0 {
			t.Fatalf("%d are late", len(late))
		}
	}
	if took := time.Since(began); took > 2*time.Second { // by walks over all it is a billion steps
		t.Errorf("they took %v", took)
	}
	p.at++
	if late, _ := p.Late(false); len(late) != 100000 {
		t.Errorf("%d are late", len(late))
	}
}
