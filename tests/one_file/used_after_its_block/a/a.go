package a

import "context"

func f(p context.Context, ok bool) {
	if ok {
		ctx, cancel := context.WithCancel(p)
		cancel()
	}
	use(ctx)
}
