package a

import (
	"context"
	"golang.org/x/sync/errgroup"
)

func f(p context.Context, b bool) {
	var g errgroup.Group
	_, cancel := context.WithCancel(p)
	g.Go(func() error { cancel(); return nil })
	if b {
		go func() { g.Wait() }()
	}
}
