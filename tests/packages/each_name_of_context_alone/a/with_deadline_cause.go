package a

import "context"

func a6(p context.Context) {
	ctx, cancel := context.WithDeadlineCause(p, noon, late)
	use(ctx)
}
