package a

import (
	"context"
	"golang.org/x/sync/errgroup"
)

func f(p context.Context, g *errgroup.Group) {
	ctx, cancel := context.WithCancel(p)
	g.Go(func() error {
		defer cancel()
		return work(ctx)
	})
}
