package a

import "context"

func f(p context.Context, ok bool) {
	ctx, cancel := context.WithCancel(p)
	if ok {
		return
	}
	defer cancel()
	if ok {
		return
	}
	use(ctx)
}
