package a

import (
	"context"
	"golang.org/x/sync/errgroup"
)

func f(p context.Context, x bool) error {
	var g errgroup.Group
	g.Go(func() error { return load(p) })
	if x {
		g.Go(func() error { return save(p) })
	} else {
		return nil
	}
	return g.Wait()
}
