package a

import (
	"context"
	"golang.org/x/sync/errgroup"
)

func f(p context.Context, s *server) error {
	ctx, cancel := context.WithCancel(p)
	defer cancel()
	s.stop = cancel
	keep(cancel)
	go run(ctx, cancel)
	s.remember(cancel)
	var g errgroup.Group
	s.group = &g
	return g.Wait()
}

func keep(cancel context.CancelFunc) {
}
