package a

import "context"

func f(p context.Context, done bool) {
	ctx, cancel := context.WithCancel(p)
	if done {
		cancel()
		return
	}
	use(ctx)
	cancel()
}
