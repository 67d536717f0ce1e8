package membership

import "agent/directory"

// Copy gives another sequence what this one knows of a silo's beats, as a copy of the machine has it.
func (s *Sequence) Copy(of directory.Silo, to *Sequence) { to.begin(of, s.chain(of)) }
