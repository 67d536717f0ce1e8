package peers

import (
	"sort"

	"agent/directory"
)

// Deaf is whom each member doesn't hear, by its own report.
type Deaf map[directory.Silo]map[directory.Silo]bool

// DeafOf is what these members report of one another.
func DeafOf(members []directory.Silo, reports map[directory.Silo]Report) Deaf {
	isIn := map[directory.Silo]bool{}
	for _, silo := range members {
		isIn[silo] = true
	}
	deaf := Deaf{}
	for _, by := range members {
		for _, list := range [][]directory.Silo{reports[by].Suspects, reports[by].Deaf} {
			for _, silo := range list {
				if isIn[silo] && silo != by {
					if deaf[by] == nil {
						deaf[by] = map[directory.Silo]bool{}
					}
					deaf[by][silo] = true
				}
			}
		}
	}
	return deaf
}

// IsCut says whether one of two members doesn't hear the other.
func (d Deaf) IsCut(a, b directory.Silo) bool { return d[a][b] || d[b][a] }

// Through is a member that hears two others, and that both hear: through it letters go between them. It is the same one whoever asks; "" where there
// is none.
func (d Deaf) Through(a, b directory.Silo, members []directory.Silo) (through directory.Silo) {
	for _, silo := range members {
		if silo != a && silo != b && !d.IsCut(a, silo) && !d.IsCut(b, silo) && (through == "" || silo < through) {
			through = silo
		}
	}
	return through
}

// CutFrom has for each member that one is cut from through whom letters go between the two, or "".
func (d Deaf) CutFrom(me directory.Silo, members []directory.Silo) map[directory.Silo]directory.Silo {
	through := map[directory.Silo]directory.Silo{}
	for _, silo := range members {
		if silo != me && d.IsCut(me, silo) {
			through[silo] = d.Through(me, silo, members)
		}
	}
	return through
}

// Yields says of a member whether it is to end where it and another are cut for long, and no letters go between them: so that the other goes on. Of
// two sides the smaller one ends, or that without the first silo by its text; of one side the silo that comes behind.
func (d Deaf) Yields(me, other directory.Silo, members []directory.Silo) bool {
	mine, theirs := d.side(me, members), d.side(other, members)
	switch {
	case len(mine) != len(theirs):
		return len(mine) < len(theirs)
	case mine[0] != theirs[0]:
		return mine[0] > theirs[0]
	}
	return me > other
}

// side is who can be reached from a member from one to the next, by text.
func (d Deaf) side(from directory.Silo, members []directory.Silo) []directory.Silo {
	side, isIn := []directory.Silo{from}, map[directory.Silo]bool{from: true}
	for i := 0; i < len(side); i++ {
		for _, silo := range members {
			if !isIn[silo] && !d.IsCut(side[i], silo) {
				isIn[silo] = true
				side = append(side, silo)
			}
		}
	}
	sort.Slice(side, func(i, j int) bool { return side[i] < side[j] })
	return side
}
