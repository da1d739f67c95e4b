package a

import "context"

func F(p context.Context, done bool) {
	ctx, cancel := context.WithCancel(p)
	if done {
		return
	}
	use(ctx)
	cancel()
}
