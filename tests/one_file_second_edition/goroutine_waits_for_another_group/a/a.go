package a

import (
	"context"
	"golang.org/x/sync/errgroup"
)

func f(p context.Context) {
	var g errgroup.Group
	var h errgroup.Group
	_, cancel := context.WithCancel(p)
	g.Go(func() error { cancel(); return nil })
	h.Go(work)
	go func() { h.Wait() }()
}
