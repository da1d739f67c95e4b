package a

import "context"

func f(p context.Context, n int) {
	ctx, cancel := context.WithCancel(p)
	switch n {
	case 1:
		use(ctx)
		fallthrough
	case 2:
		cancel()
	default:
		cancel()
	}
}
