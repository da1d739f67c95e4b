// Package lease gives contexts, and the functions that end them.
package lease

import "context"

// Take gives a context that lasts until the function is called.
func Take(parent context.Context) (context.Context, context.CancelFunc) {
	return context.WithCancel(parent)
}

// Release calls the function of a lease.
func Release(end context.CancelFunc) {
	end()
}
