package applications

import (
	"sort"
	"strings"

	"agent/directory"
)

// expect notes that a grain is a connection's if it moves here. Who expects it last has it.
func (s *Service) expect(k ask, name string) {
	if len(k.app.expects) >= mostExpected {
		k.refuse("many")
		return
	}
	if before := s.expected[name]; before != nil {
		s.unexpect(before, name)
	}
	s.expected[name] = k.app
	k.app.expects[name] = true
	k.answer("ok")
}

func (s *Service) unexpect(app *application, name string) {
	if s.expected[name] == app {
		delete(s.expected, name)
	}
	delete(app.expects, name)
}

// name gives a connection a name, or takes it back.
func (s *Service) name(k ask, name string) {
	switch {
	case len(name) > longestName || strings.Contains(name, ","):
		k.refuse("name")
	case name != "" && k.app.name == "" && s.named() >= mostNames:
		k.refuse("many")
	default:
		k.app.name = name
		k.answer("ok")
	}
}

func (s *Service) named() (count int) {
	for app := range s.apps {
		if app.name != "" {
			count++
		}
	}
	return count
}

// Names are what the applications call themselves, in order.
func (s *Service) Names() []string {
	s.mu.Lock()
	defer s.mu.Unlock()
	isThere := map[string]bool{}
	for app := range s.apps {
		if app.name != "" {
			isThere[app.name] = true
		}
	}
	var names []string
	for name := range isThere {
		names = append(names, name)
	}
	sort.Strings(names)
	return names
}

// NamesText is how names are written, in one word.
func NamesText(names []string) string {
	if len(names) == 0 {
		return "-"
	}
	return strings.Join(names, ",")
}

// Named tells all applications the names of a silo's applications.
func (s *Service) Named(silo directory.Silo, names []string) {
	s.tell("event named %s %s", silo, NamesText(names))
}
