package a

import (
	"context"
	"golang.org/x/sync/errgroup"
)

func f(p context.Context, b bool) {
	var g errgroup.Group
	_, cancel := context.WithCancel(p)
	go func() {
		g.Wait()
		cancel()
	}()
	g.Go(work)
}
