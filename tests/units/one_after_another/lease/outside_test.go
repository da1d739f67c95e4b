package lease_test

import (
	"context"
	"testing"

	"example.org/fleet/lease"
	"example.org/fleet/store"
)

func TestRelease(t *testing.T) {
	ctx, end := lease.Take(context.Background())
	if store.Load(ctx, "first") == "" {
		return
	}
	lease.Release(end)
}
