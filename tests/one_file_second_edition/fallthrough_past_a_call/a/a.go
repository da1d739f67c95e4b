package a

import "context"

func f(p context.Context, n int) {
	ctx, cancel := context.WithCancel(p)
	switch n {
	case 1:
		fallthrough
	case 2:
		use(ctx)
	default:
		cancel()
	}
}
