package b

import (
	"context"
	"golang.org/x/sync/errgroup"
)

func f(p context.Context) {
	_, cancel := context.WithCancel(p)
	g, ctx := errgroup.WithContext(p)
	g.Go(func() error {
		cancel()
		return nil
	})
	use(ctx)
	//ctxvet:accept LC07 above
} //ctxvet:accept LC10 own
