package a

import "context"

func f(p context.Context) (ctx context.Context, stop context.CancelFunc) {
	ctx, stop = context.WithCancel(p)
	return ctx, stop
}
