package a

import "x/run"

func f() {
	ctx, cancel := run.Start()
	cancel(nil)
	use(ctx)
}
