package c

import (
	"a"
	"context"

	"golang.org/x/sync/errgroup"
)

func waits(p context.Context) error {
	g, _ := errgroup.WithContext(p)
	a.Work(g)
	return g.Wait()
}
