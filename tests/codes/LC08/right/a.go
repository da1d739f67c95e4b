package a

import (
	"context"
	"golang.org/x/sync/errgroup"
)

func f(p context.Context) error {
	g, ctx := errgroup.WithContext(p)
	g.Go(func() error { return load(ctx) })
	if err := g.Wait(); err != nil {
		return err
	}
	g, later := errgroup.WithContext(p)
	g.Go(func() error { return save(later) })
	return g.Wait()
}
