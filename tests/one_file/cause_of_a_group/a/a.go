package a

import (
	"context"
	"golang.org/x/sync/errgroup"
)

func f(p context.Context) error {
	g, ctx := errgroup.WithContext(p)
	_, c := context.WithCancelCause(ctx)
	g.Go(work)
	err := g.Wait()
	c(err)
	return err
}

func k(p context.Context) error {
	g, ctx := errgroup.WithContext(p)
	_, c := context.WithCancelCause(ctx)
	g.Go(work)
	c(g.Wait())
	return g.Wait()
}

func m(p context.Context, g *errgroup.Group, e error) {
	_, c := context.WithCancelCause(p)
	g.Go(func() error {
		c(e)
		return e
	})
}
