package b

import "context"

type T struct {
	stop context.CancelFunc
}

func New(p context.Context) (context.Context, *T) {
	ctx, stop := context.WithCancel(p)
	ctx, _ = context.WithCancel(ctx)
	return ctx, &T{stop: stop}
}

func (t *T) Close() {
	t.stop()
}
