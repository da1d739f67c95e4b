package b

import "context"

func f(p context.Context) {
	ctx, cancel := context.WithCancel(p)
	use(ctx)
}
