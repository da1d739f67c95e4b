package a

import "context"

func f(p context.Context, ok bool) {
	ctx, cancel := context.WithCancel(p)
	if ok {
		return
	}
	other, _ := context.WithCancel(p)
	use(ctx, other)
}
