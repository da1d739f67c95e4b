package a

import "context"

func a5(p context.Context) {
	ctx, cancel := context.WithTimeoutCause(p, second, late)
	use(ctx)
}
