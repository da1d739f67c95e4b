package a

import "context"

func f(p context.Context, b bool) {
	_, cancel := context.WithCancel(p)
	go fin(cancel)
}

func fin(c context.CancelFunc) {
	go fin2(c)
}

func fin2(c context.CancelFunc) {
	go fin(c)
}
