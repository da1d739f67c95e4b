package a

import (
	"context"
	"golang.org/x/sync/errgroup"
)

func f(p context.Context, b bool) {
	var g errgroup.Group
	_, cancel := context.WithCancel(p)
	go h(&g)
	cancel()
	g.Wait()
}

func h(g *errgroup.Group) {
	g.Go(work)
}
