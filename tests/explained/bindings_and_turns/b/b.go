package b

import (
	"context"

	"golang.org/x/sync/errgroup"
)

func Run(ctx context.Context, jobs []int) error {
	g := new(errgroup.Group)
	for _, job := range jobs {
		if job == 0 {
			return nil
		}
		g.Go(func() error { return use(ctx) })
	}
	return g.Wait()
}

func Start(p context.Context, b bool) error {
	_, first := context.WithCancel(p)
	_, second := context.WithCancel(p)
	use(first, second)
	if b {
		return nil
	}
	return nil
}
