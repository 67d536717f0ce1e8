package applications

import (
	"agent/clock"
	"agent/silo"
)

// search is a look-up that the silo was asked for.
type search struct {
	since clock.Time
	asked []ask
	fresh []ask // who wants no hint, and came while the silo may still answer by one
	hints bool  // whether it may
}

// find looks a grain up, once for all who ask meanwhile.
func (s *Service) find(k ask, name string, fresh bool) {
	if f := s.finds[name]; f != nil {
		if fresh && f.hints {
			f.fresh = append(f.fresh, k)
		} else {
			f.asked = append(f.asked, k)
		}
		return
	}
	s.search(name, &search{since: s.options.Now(), asked: []ask{k}, hints: !fresh}, fresh)
}

// search asks the silo for a grain, behind a hint that is dropped where it has to be fresh.
func (s *Service) search(name string, f *search, fresh bool) {
	s.finds[name] = f
	var err error
	if fresh {
		err = s.options.Silo.Forget(name)
	}
	if err == nil {
		err = s.options.Silo.Find(name, func(answer silo.Answer) {
			s.mu.Lock()
			defer s.mu.Unlock()
			switch {
			case answer.Refused != "":
				s.notFound(name, answer.Refused)
			case answer.Cached && s.finds[name] == f:
				again := f.fresh
				f.fresh = nil
				s.found(name, "at %s %s hint", answer.Activation, name)
				if len(again) > 0 {
					s.search(name, &search{since: s.options.Now(), asked: again}, true)
				}
			default: // it asks the directory
				f.hints = false
			}
		})
	}
	if err != nil {
		s.notFound(name, "busy")
	}
}

func (s *Service) found(name, format string, words ...any) {
	if f := s.finds[name]; f != nil {
		delete(s.finds, name)
		s.took("find", f.since)
		for _, k := range append(f.asked, f.fresh...) {
			k.answer(format, words...)
		}
	}
}

func (s *Service) notFound(name, code string) {
	if f := s.finds[name]; f != nil {
		delete(s.finds, name)
		for _, k := range append(f.asked, f.fresh...) {
			k.refuse(code)
		}
	}
}
