package a

import "context"

func f(p context.Context) {
	_, cancel := context.WithCancel(p)
	finish(cancel)
}

func finish(c context.CancelFunc) {
	go c()
}
