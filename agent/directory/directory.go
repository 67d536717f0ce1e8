// Package directory has what the agent knows of the directory's own terms: silos, changes of membership and the views that they make, settings.
// The rules are those of docs/RULES.md, section Membership.
package directory

import (
	"fmt"
	"net"
	"sort"
	"strconv"
	"strings"
)

// Silo is a silo's text, a.b.c.d:port@generation.
type Silo string

const mostGeneration = 2147483647

// Split gives a silo's endpoint and generation.
func (s Silo) Split() (endpoint string, generation int) {
	endpoint, number, _ := strings.Cut(string(s), "@")
	generation, _ = strconv.Atoi(number)
	return endpoint, generation
}

// Endpoint is a silo's address and port.
func (s Silo) Endpoint() string {
	endpoint, _ := s.Split()
	return endpoint
}

// At is the silo of an endpoint with a generation.
func At(endpoint string, generation int) Silo {
	return Silo(fmt.Sprintf("%s@%d", endpoint, generation))
}

// ReadSilo reads a silo's text.
func ReadSilo(text string) (Silo, error) {
	endpoint, number, found := strings.Cut(text, "@")
	generation, err := strconv.Atoi(number)
	if !found || err != nil || generation < 1 || generation > mostGeneration || strconv.Itoa(generation) != number {
		return "", fmt.Errorf("%q is no silo: a.b.c.d:port@generation is wanted", text)
	}
	if err := CheckEndpoint(endpoint); err != nil {
		return "", err
	}
	return Silo(text), nil
}

// CheckEndpoint says what is wrong with an endpoint: it is an IPv4 address in its one text, and a port from 1 to 65535.
func CheckEndpoint(endpoint string) error {
	host, port, err := net.SplitHostPort(endpoint)
	ip := net.ParseIP(host)
	number, bad := strconv.Atoi(port)
	if err != nil || ip == nil || ip.To4() == nil || ip.To4().String() != host || bad != nil || number < 1 || number > 65535 || strconv.Itoa(number) != port {
		return fmt.Errorf("%q is no endpoint: an IPv4 address and a port are wanted, as in 10.0.0.1:7000", endpoint)
	}
	return nil
}

// Kind is what a change of membership does.
type Kind string

// The three kinds of change.
const (
	Joined  Kind = "joined"
	Leaving Kind = "leaving"
	Dead    Kind = "dead"
)

// Change is one change of membership: the one that makes the view of its version.
type Change struct {
	Version uint64
	Kind    Kind
	Silo    Silo
	Token   string // of a join: what its agent knows it by
}

func (c Change) String() string { return fmt.Sprintf("%s %d %s", c.Kind, c.Version, c.Silo) }

// Status is a silo's standing in a view.
type Status string

// The standings. Absent is that of a silo that never joined.
const (
	Absent    Status = ""
	IsActive  Status = "active"
	IsLeaving Status = "leaving"
	IsDead    Status = "dead"
)

// Views is what the changes so far have made. It isn't safe for use by several goroutines.
type Views struct {
	version uint64
	status  map[Silo]Status
	living  map[string]Silo // the silo of each endpoint that isn't dead
	newest  map[string]int  // the highest generation of each endpoint that ever joined
	tokens  map[Silo]string
}

// NewViews has the empty view, version 0.
func NewViews() *Views {
	return &Views{status: map[Silo]Status{}, living: map[string]Silo{}, newest: map[string]int{}, tokens: map[Silo]string{}}
}

// ViewsFrom has the view of a version, by what that lists and by what the silos' joins were decided with.
func ViewsFrom(version uint64, rows []Listed, tokens map[Silo]string) (*Views, error) {
	v := NewViews()
	v.version = version
	for _, row := range rows {
		if _, err := ReadSilo(string(row.Silo)); err != nil {
			return nil, err
		}
		endpoint, generation := row.Silo.Split()
		if v.newest[endpoint] != 0 {
			return nil, fmt.Errorf("view %d lists %s twice", version, endpoint)
		}
		switch v.newest[endpoint], v.status[row.Silo] = generation, row.Status; row.Status {
		case IsActive, IsLeaving:
			v.living[endpoint] = row.Silo
		case IsDead:
		default:
			return nil, fmt.Errorf("view %d lists %s as %q", version, row.Silo, row.Status)
		}
		if token := tokens[row.Silo]; token != "" {
			v.tokens[row.Silo] = token
		}
	}
	return v, nil
}

// Version is the last version that was made.
func (v *Views) Version() uint64 { return v.version }

// Status is a silo's standing in the last view.
func (v *Views) Status(silo Silo) Status { return v.status[silo] }

// Token is what a silo's join was decided with.
func (v *Views) Token(silo Silo) string { return v.tokens[silo] }

// Occupant is the silo at an endpoint that isn't dead, or "".
func (v *Views) Occupant(endpoint string) Silo { return v.living[endpoint] }

// Newest is the highest generation that ever joined at an endpoint, 0 if none did.
func (v *Views) Newest(endpoint string) int { return v.newest[endpoint] }

// Members are the silos that aren't dead, in no order.
func (v *Views) Members() []Silo {
	members := make([]Silo, 0, len(v.living))
	for _, silo := range v.living {
		members = append(members, silo)
	}
	return members
}

// Listed is a silo as a view lists it.
type Listed struct {
	Silo   Silo
	Status Status
}

func (l Listed) String() string { return string(l.Silo) + ":" + string(l.Status) }

// Listing is what the last view lists, by silo: of each endpoint the newest one, which alone may not be dead.
func (v *Views) Listing() []Listed {
	rows := make([]Listed, 0, len(v.newest))
	for endpoint, generation := range v.newest {
		silo := At(endpoint, generation)
		rows = append(rows, Listed{silo, v.status[silo]})
	}
	sort.Slice(rows, func(i, j int) bool { return rows[i].Silo < rows[j].Silo })
	return rows
}

// IsMember says whether a silo joined and isn't dead.
func (v *Views) IsMember(silo Silo) bool {
	return v.status[silo] == IsActive || v.status[silo] == IsLeaving
}

// Check says why silos would refuse a change as the next one, or nil. One that they refuse must never be decided: it would still have its
// number, and all later ones would be refused.
func (v *Views) Check(c Change) error {
	status := v.status[c.Silo]
	endpoint, generation := c.Silo.Split()
	switch {
	case c.Version != v.version+1:
		return fmt.Errorf("version %d isn't the one after %d", c.Version, v.version)
	case c.Kind == Joined && generation <= v.newest[endpoint]:
		return fmt.Errorf("%s can't join: generation %d of its endpoint did", c.Silo, v.newest[endpoint])
	case c.Kind == Leaving && status != IsActive:
		return fmt.Errorf("%s can't leave: it isn't active", c.Silo)
	case c.Kind == Dead && status != IsActive && status != IsLeaving:
		return fmt.Errorf("%s can't be declared dead: it never joined, or is dead", c.Silo)
	case c.Kind != Joined && c.Kind != Leaving && c.Kind != Dead:
		return fmt.Errorf("%q is no kind of change", c.Kind)
	}
	_, err := ReadSilo(string(c.Silo))
	return err
}

// Take makes the next view, and names the silo that is dead in it and wasn't before, if there is one.
func (v *Views) Take(c Change) (died Silo, err error) {
	if err := v.Check(c); err != nil {
		return "", err
	}
	v.version = c.Version
	endpoint, generation := c.Silo.Split()
	switch c.Kind {
	case Joined:
		if died = v.living[endpoint]; died != "" {
			v.status[died] = IsDead
		}
		v.status[c.Silo], v.living[endpoint], v.newest[endpoint], v.tokens[c.Silo] = IsActive, c.Silo, generation, c.Token
	case Leaving:
		v.status[c.Silo] = IsLeaving
	case Dead:
		died = c.Silo
		v.status[c.Silo] = IsDead
		delete(v.living, endpoint)
	}
	return died, nil
}
