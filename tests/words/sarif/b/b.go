package b

import "context"

func f(p context.Context) {
	ctx, cancel := context.WithCancel(p)
	_ = "é"; ctx, cancel = context.WithCancel(ctx)
	defer cancel()
	use(ctx)
}
