package a

import "context"

func f(p context.Context, b bool) {
	_, cancel := context.WithCancel(p)
	go fin[int](cancel, 1)
}

func fin[T any](c context.CancelFunc, x T) {
	c()
}
