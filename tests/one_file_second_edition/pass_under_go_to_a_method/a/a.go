package a

import "context"

func f(p context.Context, b bool) {
	_, cancel := context.WithCancel(p)
	var t T
	go t.fin(cancel)
}

type T struct{}

func (t T) fin(c context.CancelFunc) {
	c()
}
