package a

import "context"

func With(p context.Context) (context.Context, context.CancelCauseFunc) {
	return context.WithCancelCause(p)
}

func Done(c context.CancelCauseFunc, err error) {
	c(err)
}
