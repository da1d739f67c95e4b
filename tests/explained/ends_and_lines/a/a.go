package a

import (
	"context"

	"golang.org/x/sync/errgroup"
)

func open(p context.Context) (context.Context, context.CancelFunc) {
	return context.WithCancel(p)
}

func branches(p context.Context, n int) {
	_, cancel :=
		open(p)
	for _, s := range []string{"a{", "b"} { // {
		if x := len(s); x > n && /* { */
			x != 0 { // holds
			return
		}
	}
	cancel()
}

func clauses(ctx context.Context, c chan int) error {
	g, ctx := errgroup.WithContext(ctx)
	g.Go(func() error {
		<-ctx.Done()
		return nil
	}) // g
	select {
	case v := <-c:
		if v > 0 {
			return nil
		} else if v < -1 {
			use(ctx)
		}
	default:
	}
	return g.Wait()
}

func declared(b bool) error {
	var g errgroup.Group // = new(errgroup.Group)
	g.Go(work); use()
	switch any(b).(type) {
	case interface{ Done() }:
		return nil
	}
	return g.Wait()
}

func later(p context.Context, b bool) {
	var cancel context.CancelFunc
	if b {
		_, cancel = context.WithCancel(p)
	}
}
