package a

import "context"

func a1(p context.Context) {
	ctx, cancel := context.WithCancel(p)
	use(ctx)
}
