package a

import (
	"context"

	"golang.org/x/sync/errgroup"
)

func f(p context.Context, b bool) {
	var g errgroup.Group
	_, cancel := context.WithCancel(p)
	g.Go(func() error {
		defer cancel()
		return nil
	})
	go func() {
		if b {
			g.Wait()
		}
	}()
}
