package applications

import (
	"fmt"
	"log"
	"time"
)

// admits says whether an application may connect. One that may not is told why, and its connection is closed.
func (s *Service) admits(app *application) bool {
	if s.options.Admits == nil {
		return true
	}
	err := s.options.Admits(app.process, app.began)
	if err == nil {
		return true
	}
	log.Printf("error: an application isn't let in, since nobody could end it at the deadline: %v", err)
	app.conn.SetWriteDeadline(time.Now().Add(100 * time.Millisecond))
	fmt.Fprintf(app.conn, "event lost this agent ends its applications at the deadline, and can't end this one: %v\n", err)
	app.conn.Close()
	return false
}
