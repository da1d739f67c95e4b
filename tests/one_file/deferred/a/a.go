package a

import "context"

func f(p context.Context, d int) {
	ctx, cancel := context.WithCancel(p)
	defer cancel()
	use(ctx)
}
