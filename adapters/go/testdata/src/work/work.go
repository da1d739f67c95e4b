package work // want package:`"yes":false`

import (
	"context"

	"pool"
)

// Nothing but a fact of pool says that end is a cancel function.
func early(parent context.Context, key string) string {
	ctx, end := pool.Lease(parent)
	if key == "" {
		return "" // want "LC05 end "
	}
	end()
	return ctx.Err().Error()
}

// And that End calls what it is given.
func passes(parent context.Context) error {
	ctx, end := pool.Lease(parent)
	<-ctx.Done()
	pool.End(end)
	return ctx.Err()
}

func discards(parent context.Context) context.Context {
	ctx, _ := context.WithCancel(parent) // want "LC03 "
	return ctx
}

// Lend is lent a cancel function by packages that import this one.
func Lend(parent context.Context, end context.CancelFunc) {
	<-parent.Done()
	end()
}
