package a

import "x/run"

func f(done bool) {
	ctx, cancel := run.Start()
	if done {
		return
	}
	cancel(ctx.Err())
}
