package main

import (
	"context"
	"encoding/json"
	"errors"
	"fmt"
	"math/rand"
	"os"
	"sort"
	"sync"
	"time"

	"agent/clients/go/graindirectory"
)

// life is one work of a grain, from its firm to the last moment in which it worked.
type life struct {
	Grain, Activation string
	Token             uint64
	From, To          int64
	Lost              bool // its agent was fenced or gone: the silo died while this was firm
}

// store is what works write to: it tests tokens, and refuses one that is lower than the highest it was given for the grain.
type store struct {
	mu              sync.Mutex
	highest         map[string]uint64
	writes, refused int
}

func (s *store) write(grain string, token uint64) bool {
	s.mu.Lock()
	defer s.mu.Unlock()
	s.writes++
	if token < s.highest[grain] {
		s.refused++
		return false
	}
	s.highest[grain] = token
	return true
}

// record has the lives of all workers.
type record struct {
	mu      sync.Mutex
	lives   []life
	answers map[string]int
}

func (r *record) answer(what string) {
	r.mu.Lock()
	defer r.mu.Unlock()
	r.answers[what]++
}

func (r *record) lived(l life) {
	r.mu.Lock()
	defer r.mu.Unlock()
	r.lives = append(r.lives, l)
}

func work(o options) error {
	r := &record{answers: map[string]int{}}
	s := &store{highest: map[string]uint64{}}
	if text, err := os.ReadFile(o.tokens); err == nil {
		if err := json.Unmarshal(text, &s.highest); err != nil {
			return err
		}
	}
	before := map[string]uint64{}
	for grain, token := range s.highest {
		before[grain] = token
	}
	var wait sync.WaitGroup
	ctx, done := context.WithTimeout(forever, time.Duration(o.seconds*float64(time.Second)))
	defer done()
	for n := 0; n < o.clients; n++ {
		wait.Add(1)
		go func(n int) {
			defer wait.Done()
			random := rand.New(rand.NewSource(time.Now().UnixNano() + int64(n)))
			for ctx.Err() == nil {
				if n%4 == 3 && !o.careful {
					dialCareless(ctx, o, o.at[n/4%len(o.at)], random, s, r)
					continue
				}
				here := &moved{o: o, s: s, r: r}
				if client, err := dial(ctx, graindirectory.Dialer{Path: o.at[n%len(o.at)], AnyClock: o.heedless, Moved: here.live}); err == nil {
					lives(ctx, o, client, random, s, r)
					here.end()
					client.Close()
				}
			}
		}(n)
	}
	wait.Wait()
	fault := judge(r, before)
	fmt.Printf("work: %d lives of %d grains, longest time in which none began %v, %d writes, %d of them refused, answers %v\n", len(r.lives), len(s.highest),
		longestPause(r.lives).Round(time.Millisecond), s.writes, s.refused, r.answers)
	if o.tokens != "" {
		text, _ := json.Marshal(s.highest)
		if err := os.WriteFile(o.tokens, text, 0o644); err != nil {
			return err
		}
	}
	return fault
}

// lives works grains over one connection, until it is lost.
func lives(ctx context.Context, o options, client *graindirectory.Client, random *rand.Rand, s *store, r *record) {
	for ctx.Err() == nil {
		grain := fmt.Sprintf("%s/%d", o.prefix, random.Intn(o.grains))
		work, isOver := activate(ctx, client, grain, r)
		if isOver {
			return
		}
		if work == nil {
			time.Sleep(time.Duration(random.Intn(20)) * time.Millisecond)
			continue
		}
		l := live(o, of(work), time.Duration(random.Int63n(int64(o.longest))), s)
		if random.Intn(6) == 0 {
			if err := work.Migrate(forever, "any"); err != nil {
				r.answer("no migration") // as where no other silo is active
			}
		}
		isLost := finish(work)
		l.Lost = l.Lost && isLost // else the silo lives, and a later deadline came too late
		r.lived(l)
		if isLost {
			return
		}
	}
}

// moved has the works of grains that move to a connection.
type moved struct {
	o     options
	s     *store
	r     *record
	mu    sync.Mutex
	isOut bool // nothing begins any more: its connection is hung up
	works sync.WaitGroup
}

// live lives a short life of a grain that moved here.
func (m *moved) live(work *graindirectory.Work) {
	m.mu.Lock()
	if m.isOut {
		m.mu.Unlock()
		return
	}
	m.works.Add(1)
	m.mu.Unlock()
	defer m.works.Done()
	m.r.answer("moved")
	l := live(m.o, of(work), m.o.longest/4, m.s)
	isLost := finish(work)
	l.Lost = l.Lost && isLost
	m.r.lived(l)
}

// end waits until those that live have ended.
func (m *moved) end() {
	m.mu.Lock()
	m.isOut = true
	m.mu.Unlock()
	m.works.Wait()
}

// finish ends a work, which may have ended already; whether all is lost.
func finish(work *graindirectory.Work) (isLost bool) {
	for {
		err := work.Deactivate(forever)
		if err == nil || errors.Is(err, graindirectory.ErrLost) {
			return err != nil
		}
		time.Sleep(10 * time.Millisecond)
	}
}

// activate asks for a grain; isOver says that the connection is lost, or the time is over.
func activate(ctx context.Context, client *graindirectory.Client, grain string, r *record) (work *graindirectory.Work, isOver bool) {
	work, err := client.Activate(ctx, grain)
	var taken graindirectory.Taken
	var refused graindirectory.Refused
	switch {
	case err == nil:
		r.answer("firm")
	case errors.As(err, &taken):
		r.answer("taken")
	case errors.As(err, &refused):
		r.answer("refused " + refused.Code)
	case errors.Is(err, graindirectory.ErrLost):
		r.answer("lost")
		return nil, true
	default:
		r.answer("unanswered")
		return nil, true
	}
	return work, false
}

// working is a work, be it of a client or not.
type working struct {
	grain, activation string
	token             uint64
	ends, lost        <-chan struct{}
	may               func() bool
}

func of(work *graindirectory.Work) working {
	return working{work.Grain, work.Activation, work.Token, work.Ends, work.Lost, work.May}
}

// live works a grain for a while, or until it is to end.
func live(o options, w working, long time.Duration, s *store) life {
	l := life{Grain: w.grain, Activation: w.activation, Token: w.token, From: now()}
	l.To = l.From
	for end := l.From + int64(long); now() < end; time.Sleep(500 * time.Microsecond) {
		select {
		case <-w.ends:
			select {
			case <-w.lost:
				l.Lost = true
			default:
			}
			return l
		default:
		}
		if !o.heedless && !w.may() {
			l.Lost = true
			return l
		}
		l.To = now()
		s.write(w.grain, w.token)
	}
	return l
}

// judge tells two works of one grain that overlapped, and tokens that fell, or didn't rise across a death.
func judge(r *record, before map[string]uint64) error {
	sort.Slice(r.lives, func(i, j int) bool { return r.lives[i].From < r.lives[j].From })
	last := map[string]life{}
	overlapping, fallen := 0, 0
	for _, l := range r.lives {
		previous, isThere := last[l.Grain]
		if isThere && l.From < previous.To {
			overlapping++
			fmt.Printf("TWO AT ONCE, for %v: %+v and %+v\n", time.Duration(previous.To-l.From), previous, l)
		}
		if isThere && (l.Token < previous.Token || previous.Lost && l.Token == previous.Token) || !isThere && l.Token < before[l.Grain] {
			fallen++
			fmt.Printf("A TOKEN FELL, or didn't rise across a death: %+v and %+v\n", previous, l)
		}
		if !isThere || l.To > previous.To {
			last[l.Grain] = l
		}
	}
	if overlapping+fallen > 0 {
		return fmt.Errorf("%d works overlapped, %d tokens fell", overlapping, fallen)
	}
	return nil
}

func longestPause(lives []life) (longest time.Duration) {
	for i := 1; i < len(lives); i++ {
		if pause := time.Duration(lives[i].From - lives[i-1].From); pause > longest {
			longest = pause
		}
	}
	return longest
}
