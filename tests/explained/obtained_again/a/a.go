package a

import "context"

func f(p context.Context) {
	ctx, cancel := context.WithCancel(p)
	ctx, cancel = context.WithCancel(ctx)
	defer cancel()
	use(ctx)
}
