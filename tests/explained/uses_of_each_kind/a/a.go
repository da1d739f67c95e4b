package a

import (
	"context"
	"golang.org/x/sync/errgroup"
)

type server struct {
	group errgroup.Group
}

func (s *server) start(p context.Context) (context.Context, context.CancelFunc) {
	return context.WithCancel(p)
}

func f(p context.Context) *errgroup.Group {
	ctx, cancel := context.WithCancel(p)
	defer cancel()
	if cancel != nil {
		use(ctx)
	}
	g := new(errgroup.Group)
	if g.Wait() != nil {
		use(p)
	}
	return g
}
