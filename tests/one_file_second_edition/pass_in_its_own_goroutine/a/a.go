package a

import "context"

func f(p context.Context, b bool) {
	_, cancel := context.WithCancel(p)
	go fin(cancel)
}

func fin(c context.CancelFunc) {
	go func() { fin(c) }()
}
