package a

import "context"

func fetch(parent context.Context) {
	ctx, _ := context.WithCancel(parent)
	use(ctx)
}
