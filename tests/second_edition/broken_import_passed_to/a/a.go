package a

import (
	"context"

	"golang.org/x/sync/errgroup"
)

func New(p context.Context) (context.Context, context.CancelFunc) {
	return context.WithCancel(p)
}

func End(c context.CancelFunc) {
	c()
}

func Work(g *errgroup.Group) {
	g.Go(work)
}

func work() error { return nil }

func work() error { return nil }
