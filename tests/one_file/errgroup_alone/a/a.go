package a

import "golang.org/x/sync/errgroup"

func f() error {
	var g errgroup.Group
	g.Go(work)
	return nil
}
