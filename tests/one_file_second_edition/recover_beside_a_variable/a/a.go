package a

import "context"

func f(p context.Context) {
	ctx, cancel := context.WithCancel(p)
	defer cancel()
	defer func() {
		use(recover())
	}()
	use(ctx)
}
