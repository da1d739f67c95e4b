package a

import "context"

func a2(p context.Context) {
	ctx, cancel := context.WithTimeout(p, second)
	use(ctx)
}
