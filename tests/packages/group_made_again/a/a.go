package a

import (
	"context"
	"golang.org/x/sync/errgroup"
)

func f(p context.Context) error {
	g := new(errgroup.Group)
	g.Go(work)
	g = &errgroup.Group{}
	return g.Wait()
}
