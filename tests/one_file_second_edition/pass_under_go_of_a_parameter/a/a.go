package a

import "context"

func f(p context.Context) {
	_, cancel := context.WithCancel(p)
	again(cancel)
}

func again(c context.CancelFunc) {
	go again(c)
}
