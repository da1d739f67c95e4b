package a

import "context"

func f(p context.Context) {
	_, cancel := context.WithCancel(p)
	go finish(1, cancel)
}

func finish(n int, c context.CancelFunc) {
	defer c()
}
