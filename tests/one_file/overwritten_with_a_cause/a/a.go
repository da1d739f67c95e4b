package a

import "context"

func f(p context.Context, e error) {
	_, c := context.WithCancelCause(p)
	_, _ = context.WithCancelCause(p)
	_, c = context.WithCancelCause(p)
	c(e)
	c = func(error) {
	}
	_, c = context.WithCancelCause(p)
	defer c(e)
}
