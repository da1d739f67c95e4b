package a

import "context"

func f(p context.Context) (context.Context, context.CancelCauseFunc) {
	ctx, c := context.WithCancelCause(p)
	if more(ctx) {
		return ctx, c
	}
	c(nil)
	return context.WithCancelCause(p)
}

func g(p context.Context) (context.Context, context.CancelFunc) {
	ctx, c := context.WithCancelCause(p)
	if more(ctx) {
		return ctx, c
	}
	c(nil)
	return context.WithCancelCause(p)
}
