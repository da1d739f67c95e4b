package a

import "context"

func f(p context.Context) {
	ctx, stop := context.WithCancel(p)
	use(ctx)
	if stop != nil {
		stop()
	}
}

func g(p context.Context) {
	ctx, stop := context.WithCancel(p)
	use(ctx)
	if nil == stop {
		return
	}
	stop()
}

func h(p context.Context) {
	ctx, stop := context.WithCancel(p)
	use(ctx)
	if more() && stop == nil {
		return
	}
	stop()
}
