package a

import "context"

func f(p context.Context) {
	_, cancel := context.WithCancel(p)
	go func() {
		go finish(cancel)
	}()
}

func finish(c context.CancelFunc) {
	c()
}
