package a

import "context"

func f(p context.Context, each func(func(int) bool)) {
	ctx, cancel := context.WithCancel(p)
	for n := range each {
		if n > 0 {
			return
		}
		use(ctx)
	}
	cancel()
}
