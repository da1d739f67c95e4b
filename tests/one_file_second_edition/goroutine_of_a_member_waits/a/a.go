package a

import (
	"context"
	"golang.org/x/sync/errgroup"
)

func f(p context.Context, b bool) {
	var g errgroup.Group
	_, cancel := context.WithCancel(p)
	g.Go(func() error {
		go func() { g.Wait() }()
		return nil
	})
	cancel()
	g.Wait()
}
