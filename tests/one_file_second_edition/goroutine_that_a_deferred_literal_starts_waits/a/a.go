package a

import (
	"context"
	"golang.org/x/sync/errgroup"
)

func f(p context.Context, b bool) {
	var g errgroup.Group
	_, cancel := context.WithCancel(p)
	defer func() {
		go func() { g.Wait() }()
	}()
	g.Go(func() error { cancel(); return nil })
}
