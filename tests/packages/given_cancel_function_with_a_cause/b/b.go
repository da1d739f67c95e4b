package b

import (
	"a"
	"context"
)

func f(p context.Context) {
	ctx, cancel := a.With(p)
	a.Done(cancel, work(ctx))
}

func g(p context.Context) {
	ctx, cancel := a.With(p)
	defer cancel()
	use(ctx)
}
