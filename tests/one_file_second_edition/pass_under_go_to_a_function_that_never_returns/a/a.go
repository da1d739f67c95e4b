package a

import "context"

func f(p context.Context) {
	_, cancel := context.WithCancel(p)
	go finish(cancel)
}

func finish(c context.CancelFunc) {
	defer c()
	for {
	}
}
