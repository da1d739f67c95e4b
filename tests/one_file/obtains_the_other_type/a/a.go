package a

import "context"

func f(p context.Context, e error) {
	_, c := context.WithCancelCause(p)
	c(e)
	_, c = context.WithCancel(p)
	c(e)
}

func g(p context.Context) {
	var c context.CancelFunc
	_, c = context.WithCancelCause(p)
}
