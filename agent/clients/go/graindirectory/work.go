package graindirectory

import (
	"context"
	"errors"
	"strconv"
	"sync/atomic"
	"time"
)

// pause is how long it takes until an end that was refused is asked for again, where nobody waits for it any more.
const pause = 20 * time.Millisecond

// Work is an activation of this process.
type Work struct {
	Grain, Activation string
	Token             uint64
	Ends              <-chan struct{} // closed when the work is to end
	Lost              <-chan struct{} // closed when that is so since all is lost
	Ended             string          // once it has ended by Deactivate or Migrate: removed, or absent where the directory had it here no more
	client            *Client
	hold              *hold
	goesOn            atomic.Bool
}

// hold is what a client has of a grain.
type hold struct {
	grain string
	phase phase
	work  *Work
	end   *end
}

// phase is how far that is: it is asked for, worked on, ends, and is over.
type phase int

const (
	asking phase = iota
	working
	ending
	over
)

// end is the end of a grain that is under way. There is one at a time, and all who want it wait for that one.
type end struct {
	answered chan struct{} // closed once it has an answer
	err      error         // then
	isLeft   bool          // somebody waits no longer: it is asked for until it comes
}

// Activate makes this process the one that works a grain, or says Taken. A grain that this client has, or asks for already, is Refused: it is one
// work. One that ends here is waited for.
func (c *Client) Activate(ctx context.Context, grain string) (*Work, error) {
	h, err := c.begin(ctx, grain)
	if err != nil {
		return nil, err
	}
	words, isAsked, err := c.ask(ctx, "activate "+grain, func(words []string) bool { return c.granted(h, words) })
	c.mu.Lock()
	defer c.mu.Unlock()
	switch {
	case err != nil && !isAsked:
		c.drop(h, err)
	case err != nil && h.phase == asking: // ctx has ended
		c.endLeft(h)
	case h.phase == working && (err == nil || errors.Is(err, ctx.Err())):
		return h.work, nil
	case err == nil && words[0] == "taken" && len(words) > 1:
		return nil, Taken(words[1])
	case err == nil: // the agent grants what it may not
		return nil, Refused{"yours", "this client has it already"}
	}
	return nil, err
}

// begin has a grain asked for, once an end of it that is under way has come.
func (c *Client) begin(ctx context.Context, grain string) (*hold, error) {
	for {
		c.mu.Lock()
		h := c.grains[grain]
		if c.waits == nil {
			c.mu.Unlock()
			return nil, ErrLost
		}
		if h == nil {
			h = &hold{grain: grain}
			c.grains[grain] = h
			c.mu.Unlock()
			return h, nil
		}
		before := h.end
		isEnding := h.phase == ending
		c.mu.Unlock()
		if !isEnding {
			return nil, Refused{"yours", "this client has it, or asks for it already"}
		}
		select {
		case <-before.answered:
		case <-ctx.Done():
			return nil, ctx.Err()
		}
	}
}

// granted takes the answer to `activate`; whether that can be. mu is held, as in all that follows where nothing else is said.
func (c *Client) granted(h *hold, words []string) bool {
	switch {
	case h.phase != asking: // it was given up, or moved here meanwhile
	case words[0] == "firm":
		return c.work(h, words) != nil
	default:
		c.drop(h, nil)
	}
	return true
}

// work begins a work of a hold: firm ACTIVATION GRAIN token V; nil where that isn't whole.
func (c *Client) work(h *hold, words []string) *Work {
	if len(words) != 5 {
		return nil
	}
	token, err := strconv.ParseUint(words[4], 10, 64)
	if err != nil {
		return nil
	}
	h.phase, h.work = working, &Work{Activation: words[1], Grain: h.grain, Token: token, Ends: c.ends, Lost: c.Lost, client: c, hold: h}
	h.work.goesOn.Store(true)
	return h.work
}

// movedHere takes a grain that moved here; whether that can be. It takes the lock.
func (c *Client) movedHere(words []string) bool {
	if len(words) < 3 {
		return false
	}
	c.mu.Lock()
	defer c.mu.Unlock()
	h := c.grains[words[2]]
	switch {
	case h != nil && h.phase == working:
		return false
	case h != nil && h.phase == ending:
		return true // the agent reads that end yet
	case h == nil:
		h = &hold{grain: words[2]}
		c.grains[h.grain] = h
	}
	w := c.work(h, words)
	switch {
	case w == nil:
		return false
	case c.moved != nil:
		go c.moved(w)
	default:
		c.endLeft(h)
	}
	return true
}

// May says whether the work may go on now. It waits for nothing, and asks the kernel whether the agent has hung up.
func (w *Work) May() bool {
	c := w.client
	return w.goesOn.Load() && !c.isLost.Load() && boot() < c.until.Load()-c.margin.Load() && !c.isHungUp()
}

// Deactivate says that the work has ended. Where ctx ends first the work doesn't go on, and is ended behind that.
func (w *Work) Deactivate(ctx context.Context) error { return w.ends(ctx, "deactivate "+w.Grain) }

// Migrate says that the work has ended here; it goes on at another silo, where an application serves. `any` chooses one. Where Ended is `removed`
// afterwards, that may be yet to come, or never: who wants the grain activates it.
func (w *Work) Migrate(ctx context.Context, silo string) error {
	return w.ends(ctx, "migrate "+w.Grain+" "+silo)
}

// ends ends a work, or waits for an end that is under way. Where the agent refuses, all is as it was. It takes the lock.
func (w *Work) ends(ctx context.Context, question string) error {
	c, h := w.client, w.hold
	c.mu.Lock()
	switch {
	case h.phase == over:
		c.mu.Unlock()
		if w.Ended == "" {
			return ErrLost
		}
		return nil
	case c.waits == nil:
		c.drop(h, ErrLost)
		c.mu.Unlock()
		return ErrLost
	case h.phase == working:
		c.endBy(h, question, false)
	}
	e := h.end
	c.mu.Unlock()
	select {
	case <-e.answered:
		return e.err
	case <-ctx.Done():
	}
	c.mu.Lock()
	defer c.mu.Unlock()
	select {
	case <-e.answered:
		return e.err
	default:
		e.isLeft = true
		return ctx.Err()
	}
}

// endLeft has a grain ended that nobody waits for.
func (c *Client) endLeft(h *hold) { c.endBy(h, "deactivate "+h.grain, true) }

// endBy has a grain ended by a question.
func (c *Client) endBy(h *hold, question string, isLeft bool) {
	if h.work != nil {
		h.work.goesOn.Store(false)
	}
	h.phase, h.end = ending, &end{answered: make(chan struct{}), isLeft: isLeft}
	go c.carryOut(h, question)
}

// carryOut asks for an end until it comes, or is refused to those who wait for it. It takes the lock.
func (c *Client) carryOut(h *hold, question string) {
	for again := true; again; question = "deactivate " + h.grain {
		hears := func(words []string) bool {
			again = c.endAnswered(h, words)
			return true
		}
		if _, _, err := c.ask(context.Background(), question, hears); err == ErrLost {
			return // all is over then
		}
		if again {
			time.Sleep(pause)
		}
	}
}

// endAnswered takes the answer to an end; whether it has to be asked for again.
func (c *Client) endAnswered(h *hold, words []string) (again bool) {
	code, why := "", words
	if words[0] == "refused" && len(words) > 1 {
		code, why = words[1], words[2:]
	}
	switch {
	case h.phase != ending || code == "lost": // all is lost
	case code == "" || h.end.isLeft && (code == "802" || code == "803"): // ended GRAIN removed|absent; or it isn't this client's
		if h.work != nil && code == "" {
			h.work.Ended = words[len(words)-1]
		} else if h.work != nil {
			h.work.Ended = "absent"
		}
		c.drop(h, nil)
	case h.end.isLeft:
		return true
	default:
		e := h.end
		h.phase, h.end = working, nil
		h.work.goesOn.Store(true)
		e.err = Refused{code, join(why)}
		close(e.answered)
	}
	return false
}

// drop forgets a grain.
func (c *Client) drop(h *hold, err error) {
	if h.phase == over {
		return
	}
	h.phase = over
	if h.work != nil {
		h.work.goesOn.Store(false)
	}
	if h.end != nil {
		h.end.err = err
		close(h.end.answered)
	}
	delete(c.grains, h.grain)
	c.hangUp()
}
