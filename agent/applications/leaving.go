package applications

// mostEnding is how many activations that nobody has any more end at a time: what others ask the silo meanwhile waits behind so many and no more.
const mostEnding = 64

// pile is a set of activations, each of which knows its place.
type pile struct{ grains []*grain }

func (p *pile) size() int {
	if p == nil {
		return 0
	}
	return len(p.grains)
}

func (p *pile) add(g *grain) {
	g.place = len(p.grains)
	p.grains = append(p.grains, g)
}

// remove takes an activation out, and says whether it was there.
func (p *pile) remove(g *grain) bool {
	last := len(p.grains) - 1
	if g.place > last || p.grains[g.place] != g {
		return false
	}
	p.grains[g.place] = p.grains[last]
	p.grains[g.place].place = g.place
	p.grains[last] = nil
	p.grains = p.grains[:last]
	return true
}

// hungUp takes what an application had for what nobody has: with its connection its work has ended. However much that is, nobody waits for its end.
func (s *Service) hungUp(app *application) {
	s.mu.Lock()
	delete(s.apps, app)
	for name := range app.expects {
		s.unexpect(app, name)
	}
	if s.whose[app].size() > 0 {
		s.left = append(s.left, app)
	}
	s.endLeft()
	s.mu.Unlock()
	s.disconnected(app.process)
}

// endLeft ends of what nobody has any more as much as may end at a time; whatever has ended makes room for more. It stops where the silo takes
// nothing more, until Sweep.
func (s *Service) endLeft() {
	for s.underWay < mostEnding && len(s.left) > 0 && !s.isOver() {
		of := s.whose[s.left[0]]
		if of.size() == 0 {
			s.left = s.left[1:]
			continue
		}
		g := of.grains[of.size()-1]
		s.give(g, nil)
		if !s.release(g) {
			return
		}
	}
}

// release ends an activation that nobody has, unless it moves here; whether the silo takes more.
func (s *Service) release(g *grain) bool {
	isTold := false
	switch {
	case g.phase == firm:
		s.endsLeft(g)
		s.close(ask{}, g.name, "")
		isTold = true
	case g.phase == asking && len(g.asked) > 0:
		s.endsLeft(g)
		s.giveUp(g, nil)
		isTold = g.owner == nil
	}
	if g.phase != closing {
		s.leftNoMore(g)
		return !isTold
	}
	return true
}

func (s *Service) endsLeft(g *grain) {
	if !g.isLeft {
		g.isLeft = true
		s.underWay++
	}
}

func (s *Service) leftNoMore(g *grain) {
	if g.isLeft {
		g.isLeft = false
		s.underWay--
	}
}

// disconnected tells that a process has hung up, where it has no other connection.
func (s *Service) disconnected(process int) {
	s.watching.Lock()
	defer s.watching.Unlock()
	if _, isThere := s.Processes()[process]; !isThere && s.options.Disconnected != nil {
		s.options.Disconnected(process)
	}
}

// Sweep ends the activations that nobody has: those whose end was refused, as where too much waited for the silo.
func (s *Service) Sweep() {
	s.mu.Lock()
	defer s.mu.Unlock()
	for _, g := range append([]*grain(nil), s.nobodys()...) {
		if s.underWay >= mostEnding || s.isOver() || !s.release(g) {
			return
		}
	}
	s.endLeft()
}

// nobodys are those that nobody has: what moves here, what ends, and what the silo refused to end.
func (s *Service) nobodys() []*grain {
	if of := s.whose[nil]; of != nil {
		return of.grains
	}
	return nil
}
