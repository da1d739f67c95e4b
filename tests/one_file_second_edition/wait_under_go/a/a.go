package a

import "golang.org/x/sync/errgroup"

func f(work func() error) {
	var g errgroup.Group
	g.Go(work)
	go g.Wait()
}
