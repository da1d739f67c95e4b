package a

import "context"

func f(p context.Context) {
	ctx, cancel := context.WithCancel(p)
	defer cancel()
	go watch(ctx, cancel)
}

func g(p context.Context) {
	ctx, cancel := context.WithCancel(p)
	go watch(ctx, cancel)
}
