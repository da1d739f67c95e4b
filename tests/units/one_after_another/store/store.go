// Package store keeps values for as long as somebody holds a lease.
package store

import (
	"context"

	"example.org/fleet/lease"
)

// Load forgets its lease where there is no key.
func Load(parent context.Context, key string) string {
	ctx, end := lease.Take(parent)
	if key == "" {
		return ""
	}
	value := read(ctx, key)
	lease.Release(end)
	return value
}

// Close ends a lease.
func Close(end context.CancelFunc) {
	defer end()
}

func read(ctx context.Context, key string) string {
	if ctx.Err() != nil {
		return ""
	}
	return key
}
