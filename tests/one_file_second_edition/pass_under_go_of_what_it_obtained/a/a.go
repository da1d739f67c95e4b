package a

import "context"

func f(p context.Context, c context.CancelFunc) {
	defer c()
	_, d := context.WithCancel(p)
	go f(p, d)
}
