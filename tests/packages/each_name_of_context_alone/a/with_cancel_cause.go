package a

import "context"

func a4(p context.Context) {
	ctx, cancel := context.WithCancelCause(p)
	use(ctx)
}
