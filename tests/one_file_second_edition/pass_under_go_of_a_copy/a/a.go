package a

import "context"

func f(p context.Context, b bool) {
	_, cancel := context.WithCancel(p)
	go fin(cancel)
}

func fin(c context.CancelFunc) {
	var d context.CancelFunc = c
	go fin(d)
}
