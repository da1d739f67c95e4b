// Package front has store end a lease, so it can be no better than that is.
package front

import (
	"context"

	"example.org/fleet/lease"
	"example.org/fleet/store"
)

// Serve loads a value under a lease of its own.
func Serve(parent context.Context, key string) string {
	ctx, end := lease.Take(parent)
	value := store.Load(ctx, key)
	store.Close(end)
	return value
}
