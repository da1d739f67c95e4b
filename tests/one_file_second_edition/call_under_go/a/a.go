package a

import "context"

func f(p context.Context) {
	_, cancel := context.WithCancel(p)
	go cancel()
}

func g(p context.Context) {
	_, stop := context.WithCancelCause(p)
	defer func() {
		go stop(nil)
	}()
}
