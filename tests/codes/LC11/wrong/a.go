package a

import "context"

func f(p context.Context, x bool) {
	cancel := func() {}
	if x {
		p, cancel = context.WithCancel(p)
	}
	defer func() {
		cancel()
	}()
	use(p)
}
