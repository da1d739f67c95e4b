package a

import "context"

type T struct {
	stop context.CancelFunc
	more context.CancelFunc
}

func New(p context.Context) (context.Context, *T) {
	ctx, stop := context.WithCancel(p)
	ctx, more := context.WithCancel(ctx)
	return ctx, &T{stop: stop, more: more}
}

func (t *T) Close() {
	t.stop()
	t.more()
}
