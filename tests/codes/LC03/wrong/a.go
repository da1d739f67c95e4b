package a

import "context"

func f(p context.Context) {
	ctx, _ := context.WithCancel(p)
	use(ctx)
}
