package a

import "context"

func a3(p context.Context) {
	ctx, cancel := context.WithDeadline(p, noon)
	use(ctx)
}
