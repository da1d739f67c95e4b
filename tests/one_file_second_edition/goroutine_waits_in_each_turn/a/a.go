package a

import (
	"context"
	"golang.org/x/sync/errgroup"
)

func f(p context.Context) {
	for next() {
		g, _ := errgroup.WithContext(p)
		g.Go(work)
		go func() { g.Wait() }()
	}
}
