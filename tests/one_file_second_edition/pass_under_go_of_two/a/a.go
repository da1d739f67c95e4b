package a

import "context"

func f(p context.Context) {
	_, c := context.WithCancel(p)
	_, d := context.WithCancel(p)
	go fin(c, d)
}

func fin(c, d context.CancelFunc) {
	c()
}
