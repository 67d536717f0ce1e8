//go:build !race

package beats

// isRace says that the race detector runs.
const isRace = false
