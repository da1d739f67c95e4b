package a

import (
	"context"
	"golang.org/x/sync/errgroup"
)

func f(p context.Context) error {
	g, ctx := errgroup.WithContext(p)
	g.Go(func() error { return load(ctx) })
	g, later := errgroup.WithContext(p)
	g.Go(func() error { return save(later) })
	return g.Wait()
}
