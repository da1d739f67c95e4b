package host

import (
	"context"

	"example.org/fleet/lease"
)

// Name tells the system, under a lease.
func Name(parent context.Context) string {
	_, end := lease.Take(parent)
	defer lease.Release(end)
	return "linux"
}
