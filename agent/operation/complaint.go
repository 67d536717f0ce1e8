package operation

import (
	"net/url"
	"strings"
	"time"

	"agent/clock"
)

// again is how long after one complaint the next is due.
const again = 30 * time.Second

// Complaint is something that is wrong for a while, and told at once, and again every 30 seconds.
type Complaint struct {
	isTold bool
	last   clock.Time
}

// IsDue says whether to tell it now.
func (c *Complaint) IsDue(now clock.Time) bool {
	if c.isTold && now.Sub(c.last) < again {
		return false
	}
	c.isTold, c.last = true, now
	return true
}

// StoreName says which store is meant, without its passwords.
func (c *Config) StoreName() string {
	if c.Postgres == "" {
		return "etcd " + c.Etcd
	}
	if at, err := url.Parse(c.Postgres); err == nil && at.Scheme != "" {
		return at.Redacted()
	}
	var words []string
	for _, word := range strings.Fields(c.Postgres) {
		if !strings.HasPrefix(word, "password=") {
			words = append(words, word)
		}
	}
	return "PostgreSQL " + strings.Join(words, " ")
}
