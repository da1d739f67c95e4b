package a

import (
	"golang.org/x/sync/errgroup"
	"x/run"
)

func f() error {
	var g errgroup.Group
	run.Work(&g)
	return g.Wait()
}
