package a

import "golang.org/x/sync/errgroup"

func start(g *errgroup.Group) {
	g.Go(work)
}

func f() error {
	var g errgroup.Group
	start(&g)
	return g.Wait()
}
