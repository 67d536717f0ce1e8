// Package applications serves the applications of this machine over a Unix socket, by lines. An application asks, with a tag of its own in front;
// the answer has that tag, and answers come in any order:
//
//	TAG activate GRAIN       firm ACTIVATION GRAIN token V | taken ACTIVATION GRAIN: it is there | refused ..; refused yours: this connection has it
//	TAG find GRAIN [fresh]   at ACTIVATION GRAIN [hint] | nowhere GRAIN | refused ..; fresh asks the directory where there is a hint
//	TAG deactivate GRAIN     ended GRAIN removed|absent | refused ..; the application ends the work, then asks; absent: the directory had it
//	                         here no more. One that isn't firm yet is given up: its activate is refused by `given`, or a firm is on its way,
//	                         which begins no work. Of several ends of a grain all have the answer of the first
//	TAG migrate GRAIN SILO   the same; SILO may be `any`
//	TAG serve [KIND ..]      ok; grains, or those of these kinds, that move here may be given to this connection
//	TAG expect GRAIN         ok; if it moves here it is this connection's, before any that serves its kind. TAG unexpect GRAIN takes that back
//	TAG named [NAME]         ok; by this name the other silos' applications hear of this connection; without a word, by none any more
//	TAG members              members V SILO active|leaving NAME,..|- SILO ..: the silos of version V and their applications' names
//	TAG clock                clock NOW: by the agent's clock, that of `event valid`
//	TAG status               status SILO version V seen V settled V members N held N
//	                         refused CODE WORDS: why, and what to do
//
// By itself the agent says to each connection
//
//	event valid UNTIL                 work is allowed until then, in nanoseconds of CLOCK_BOOTTIME
//	event firm ACTIVATION GRAIN token V   it moved here, and is this connection's now
//	event member joined|leaving|dead SILO version V
//	event named SILO NAME,..|-         the names of a silo's applications, whenever they change
//	event settled V                   this silo's ranges are settled at that version
//	event leaving                     this silo leaves: end the work, then deactivate or migrate each grain
//	event lost WHY                    all activations are lost: end all work, then hang up
//
// An activation belongs to the connection that asked for it. When that hangs up its work has ended, so the activation is closed; one that isn't firm
// yet is given up, unless another connection asks for it, too. However many there are, few of them end at a time.
package applications

import (
	"fmt"
	"sync"
	"time"

	"agent/clock"
	"agent/directory"
	"agent/silo"
)

// Directory is what a silo does for applications; package silo has it. None of it waits, and what answers is called later: the service holds its
// lock when it asks, and takes it when it is answered. What is asked of one grain is answered in that order, and between what is said of the grain.
type Directory interface {
	Wake(grain string, answer func(silo.Answer)) error
	Close(grain string, answer func(silo.Answer)) error
	Cancel(grain string, answer func(silo.Answer)) error
	Offer(grain string, to directory.Silo, answer func(silo.Answer)) error
	Find(grain string, answer func(silo.Answer)) error
	Forget(grain string) error
	Place(grain string, answer func(directory.Silo)) error
}

// Options are what a service works with.
type Options struct {
	Silo    Directory                                 // asked under the service's lock, as are May, Until and Took: none of them waits
	May     func() bool                               // whether the silo may work now
	Until   func() clock.Time                         // the deadline so far
	Now     clock.Clock                               //
	Another func(place directory.Silo) directory.Silo // where `migrate GRAIN any` goes, by the grain's place; "" for nowhere
	Status  func() string                             // what `status` answers, but for what is held
	Members func() string                             // what `members` answers
	Took    func(what string, took time.Duration)     // told how long each question took that was granted

	Admits       func(process int, began string) error // why a process may not connect, or nil; nil: all may
	Connected    func(process int, began string)       // told each process that connects, and when it began
	Disconnected func(process int)                     // told each process that has hung up, with all its connections
}

// Service has the activations of one silo, and the connections that they belong to.
type Service struct {
	options  Options
	watching sync.Mutex // held while Connected and Disconnected are told, so that they come in order

	mu       sync.Mutex
	over     string // why all is lost
	leaving  bool
	grains   map[string]*grain
	whose    map[*application]*pile  // what each application has; under nil, what nobody has
	expected map[string]*application // whose a grain is if it moves here
	finds    map[string]*search
	apps     map[*application]bool
	counts   map[string]int64
	left     []*application // have hung up, and had something then
	underWay int            // ends of what nobody has any more
}

// phase is how far an activation has come.
type phase int

const (
	asking phase = iota
	firm
	closing
)

// grain is an activation that the silo holds, or will when it has read what it was told.
type grain struct {
	name, activation string // activation: as the silo has named it, or ""
	phase            phase
	isWaking         bool // `wake` isn't answered yet
	token            uint64
	since            clock.Time
	owner            *application // whose work it is, or who asks first; nil while it moves here, and once that has hung up
	asked            []ask        // who waits for firm or taken
	ending           []ask        // who waits for its end
	isLeft           bool         // it is among those that the service ends, since nobody has it any more
	place            int          // in the pile of its owner
	again            []ask        // who wants it anew behind its end
}

// New makes a service; connections come by Serve.
func New(options Options) *Service {
	return &Service{options: options, grains: map[string]*grain{}, whose: map[*application]*pile{}, expected: map[string]*application{},
		finds: map[string]*search{}, apps: map[*application]bool{}, counts: map[string]int64{}}
}

// Figures are what a service has, and what it counted.
type Figures struct {
	Held, Left, Finding, Applications int // left: nobody has it any more, and its end isn't begun
	Counts                            map[string]int64
}

// Figures are what it has now.
func (s *Service) Figures() Figures {
	s.mu.Lock()
	defer s.mu.Unlock()
	f := Figures{Held: len(s.grains), Finding: len(s.finds), Applications: len(s.apps), Counts: map[string]int64{}}
	for _, app := range s.left {
		f.Left += s.whose[app].size()
	}
	for name, count := range s.counts {
		f.Counts[name] = count
	}
	return f
}

// Held is how many activations the silo holds.
func (s *Service) Held() int {
	s.mu.Lock()
	defer s.mu.Unlock()
	return len(s.grains)
}

func (s *Service) took(what string, since clock.Time) {
	if s.options.Took != nil {
		s.options.Took(what, s.options.Now().Sub(since))
	}
}

// Deadline tells all applications a later deadline.
func (s *Service) Deadline(until clock.Time) { s.tell("event valid %d", until.Nanoseconds()) }

// Changed tells all applications a change of membership.
func (s *Service) Changed(change directory.Change) {
	s.tell("event member %s %s version %d", change.Kind, change.Silo, change.Version)
}

// Settled tells all applications that this silo's ranges are settled.
func (s *Service) Settled(version uint64) { s.tell("event settled %d", version) }

// Leave tells all applications that this silo leaves, and takes no activations any more.
func (s *Service) Leave() {
	s.mu.Lock()
	s.leaving = true
	s.mu.Unlock()
	s.tell("event leaving")
}

func (s *Service) tell(format string, words ...any) {
	line := []byte(fmt.Sprintf(format, words...))
	s.mu.Lock()
	defer s.mu.Unlock()
	for app := range s.apps {
		app.out.Add(line, mostNews)
	}
}
