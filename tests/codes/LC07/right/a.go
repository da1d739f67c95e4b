package a

import (
	"context"
	"golang.org/x/sync/errgroup"
)

func f(p context.Context, x bool) error {
	if x {
		return nil
	}
	g, ctx := errgroup.WithContext(p)
	g.Go(func() error { return work(ctx) })
	return g.Wait()
}
