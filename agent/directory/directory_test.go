package directory

import (
	"errors"
	"fmt"
	"testing"
	"time"
)

func TestReadSilo(t *testing.T) {
	for text, isSilo := range map[string]bool{
		"10.0.0.1:1000@1": true, "255.255.255.255:65535@2147483647": true,
		"10.0.0.1:1000": false, "10.0.0.1:1000@0": false, "10.0.0.1:1000@01": false, "10.0.0.1:1000@2147483648": false, "10.0.0.1:0@1": false,
		"10.0.0.1:01000@1": false, "host:1000@1": false, "[::1]:1000@1": false, "[::ffff:10.0.0.1]:1000@1": false, "10.0.0.1@1": false, "": false,
	} {
		if _, err := ReadSilo(text); (err == nil) != isSilo {
			t.Errorf("ReadSilo(%q): %v", text, err)
		}
	}
}

func TestViews(t *testing.T) {
	a1, a2, b1 := Silo("10.0.0.1:1000@1"), Silo("10.0.0.1:1000@2"), Silo("10.0.0.2:1000@1")
	views := NewViews()
	for _, step := range []struct {
		change Change
		died   Silo
		isIn   bool
	}{
		{Change{1, Joined, a1, "x"}, "", true},
		{Change{2, Joined, a1, ""}, "", false},
		{Change{3, Joined, b1, ""}, "", false},
		{Change{2, Leaving, b1, ""}, "", false},
		{Change{2, Dead, b1, ""}, "", false},
		{Change{2, Joined, b1, ""}, "", true},
		{Change{3, Leaving, b1, ""}, "", true},
		{Change{4, Leaving, b1, ""}, "", false},
		{Change{4, Joined, a2, ""}, a1, true},
		{Change{5, Dead, a1, ""}, "", false},
		{Change{5, Dead, b1, ""}, b1, true},
		{Change{6, Joined, a1, ""}, "", false},
		{Change{6, "moved", a2, ""}, "", false},
	} {
		died, err := views.Take(step.change)
		if died != step.died || (err == nil) != step.isIn {
			t.Errorf("%v: died %q, %v", step.change, died, err)
		}
	}
	if views.Version() != 5 || views.Status(a1) != IsDead || views.Status(a2) != IsActive || views.Status(b1) != IsDead || views.Token(a1) != "x" {
		t.Errorf("%+v", views)
	}
	if rows := views.Listing(); len(rows) != 2 || rows[0] != (Listed{a2, IsActive}) || rows[1].String() != "10.0.0.2:1000@1:dead" {
		t.Errorf("rows %v", rows)
	}
	if members := views.Members(); len(members) != 1 || members[0] != a2 || views.Newest("10.0.0.1:1000") != 2 || views.Occupant("10.0.0.2:1000") != "" {
		t.Errorf("members %v", members)
	}
}

func TestSettings(t *testing.T) {
	settings := DefaultSettings()
	if settings.Text() != "version=2 hashing=sha256 points=30 cache=1024 transport=nats ttl=15s" {
		t.Error(settings.Text())
	}
	if err := settings.Compare(settings.Text()); err != nil {
		t.Error(err)
	}
	other := settings
	other.Transport, other.TTL = "tcp", 5*time.Second
	var difference Difference
	if err := other.Compare(settings.Text()); !errors.As(err, &difference) || difference.Name != "transport" || difference.Theirs != "nats" {
		t.Error(err)
	}
	for _, change := range []func(*Settings){
		func(s *Settings) { s.Hashing = "md5" }, func(s *Settings) { s.Points = 0 }, func(s *Settings) { s.Points = 129 },
		func(s *Settings) { s.Cache = 65537 }, func(s *Settings) { s.Transport = "mqtt" }, func(s *Settings) { s.TTL = time.Millisecond },
	} {
		wrong := settings
		change(&wrong)
		if wrong.Check() == nil {
			t.Errorf("%+v is taken", wrong)
		}
	}
	if err := settings.Check(); err != nil {
		t.Error(err)
	}
}

// A view that begins with what another lists goes on as that does.
func TestViewsFrom(t *testing.T) {
	views := NewViews()
	for i, change := range []Change{{Kind: Joined, Silo: "10.0.0.1:1@1", Token: "a"}, {Kind: Joined, Silo: "10.0.0.2:1@4", Token: "b"}, {Kind: Leaving, Silo: "10.0.0.2:1@4"},
		{Kind: Joined, Silo: "10.0.0.3:1@1"}, {Kind: Dead, Silo: "10.0.0.3:1@1"}, {Kind: Joined, Silo: "10.0.0.1:1@2", Token: "c"}} {
		change.Version = uint64(i + 1)
		if _, err := views.Take(change); err != nil {
			t.Fatal(err)
		}
	}
	from, err := ViewsFrom(views.Version(), views.Listing(), map[Silo]string{"10.0.0.1:1@2": "c"})
	if err != nil || fmt.Sprint(from.Listing()) != fmt.Sprint(views.Listing()) || from.Version() != 6 || from.Token("10.0.0.1:1@2") != "c" ||
		from.Occupant("10.0.0.2:1") != "10.0.0.2:1@4" || from.Occupant("10.0.0.3:1") != "" || len(from.Members()) != 2 || from.Newest("10.0.0.3:1") != 1 {
		t.Errorf("%v, %v, of %v", err, from, views)
	}
	for _, change := range []Change{{Kind: Joined, Silo: "10.0.0.3:1@1"}, {Kind: Joined, Silo: "10.0.0.1:1@1"}, {Kind: Dead, Silo: "10.0.0.1:1@1"}, {Kind: Dead, Silo: "10.0.0.2:1@4"},
		{Kind: Joined, Silo: "10.0.0.3:1@2"}, {Kind: Leaving, Silo: "10.0.0.2:1@4"}} {
		change.Version = 7
		if one, other := from.Check(change), views.Check(change); (one == nil) != (other == nil) {
			t.Errorf("%v: %v, not %v", change, one, other)
		}
	}
	for _, rows := range [][]Listed{{{"nonsense", IsActive}}, {{"10.0.0.1:1@1", "sleeping"}}, {{"10.0.0.1:1@1", IsActive}, {"10.0.0.1:1@2", IsActive}}} {
		if _, err := ViewsFrom(1, rows, nil); err == nil {
			t.Errorf("%v is a view", rows)
		}
	}
}
