package a

import "context"

func With[T any](p context.Context, v T) (context.Context, context.CancelFunc) {
	return context.WithCancel(p)
}

func f(p context.Context) {
	ctx, cancel := With[int](p, 1)
	use(ctx, cancel)
}

func g(p context.Context) {
	ctx, cancel := With(p, 1)
	use(ctx)
}
