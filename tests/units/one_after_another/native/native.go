// Package native calls C.
package native

// static int twice(int number) { return 2 * number; }
import "C"

import "context"

// Count forgets its context where the number is too big.
func Count(parent context.Context, number int) int {
	ctx, cancel := context.WithCancel(parent)
	twice := int(C.twice(C.int(number)))
	if twice > most {
		return most
	}
	if ctx.Err() != nil {
		twice = 0
	}
	cancel()
	return twice
}
