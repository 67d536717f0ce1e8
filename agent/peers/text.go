package peers

import "strconv"

func decimal(n uint64) string { return strconv.FormatUint(n, 10) }

func number(text string) uint64 {
	n, _ := strconv.ParseUint(text, 10, 64)
	return n
}
