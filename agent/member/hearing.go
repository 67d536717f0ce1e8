package member

import (
	"agent/directory"
	"agent/silo"
)

// lines is the member as a listener of its silo.
type lines Member

func (m *lines) Letter(to directory.Silo, kind string, line []byte) { m.post.Letter(to, kind, line) }
func (m *lines) Quiet()                                             { m.post.Flush() }
func (m *lines) Said(said silo.Said)                                { m.service.Said(said) }
func (m *lines) Broken(reason string)                               { m.fence.Give(reason) }

// letters is the member as a listener of its post. What comes before the silo's process is there is lost.
type letters Member

func (m *letters) Receive(line []byte) {
	if process := (*Member)(m).process(); process != nil && m.fence.May() {
		process.Receive(line)
	}
}
func (m *letters) Asked(to directory.Silo, kind string) { m.silence.Asked(to, kind) }
func (m *letters) Heard(from directory.Silo)            { m.silence.Heard(from) }

// late is the member as the directory of its applications: they come in once the silo's process is there.
type late Member

func (m *late) Wake(grain string, answer func(silo.Answer)) error { return m.silo.Wake(grain, answer) }
func (m *late) Close(grain string, answer func(silo.Answer)) error {
	return m.silo.Close(grain, answer)
}
func (m *late) Cancel(grain string, answer func(silo.Answer)) error {
	return m.silo.Cancel(grain, answer)
}
func (m *late) Offer(grain string, to directory.Silo, answer func(silo.Answer)) error {
	return m.silo.Offer(grain, to, answer)
}
func (m *late) Find(grain string, answer func(silo.Answer)) error { return m.silo.Find(grain, answer) }
func (m *late) Forget(grain string) error                         { return m.silo.Forget(grain) }
func (m *late) Place(grain string, answer func(directory.Silo)) error {
	return m.silo.Place(grain, answer)
}

// TransportChanged says that the transport was lost, or is back: silence until now says nothing of the others, and letters may come again.
func (m *Member) TransportChanged() {
	m.silence.Forget()
	if process := m.process(); process != nil {
		process.Hurry()
	}
}
