package a

import "context"

func f(p context.Context, ok bool) {
	ctx, cancel := context.WithCancel(p)
	if ok {
		cancel()
	} else {
		cancel()
	}
	use(ctx)
}
