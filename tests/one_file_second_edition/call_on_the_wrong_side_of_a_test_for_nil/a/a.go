package a

import "context"

func f(p context.Context) {
	ctx, stop := context.WithCancel(p)
	use(ctx)
	if stop == nil {
		stop()
	}
}

func g(p context.Context) {
	ctx, stop := context.WithCancel(p)
	use(ctx)
	if stop == nil || more() {
		return
	}
	stop()
}

func h(p context.Context, nil context.CancelFunc) {
	ctx, stop := context.WithCancel(p)
	use(ctx)
	if stop == nil {
		return
	}
	stop()
}
