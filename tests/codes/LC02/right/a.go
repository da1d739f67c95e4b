package a

import "context"

func f(p context.Context) {
	ctx, cancel := context.WithCancel(p)
	defer cancel()
	for more(ctx) {
	}
}
