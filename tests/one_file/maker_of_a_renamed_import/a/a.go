package a

import c "context"

func f(p c.Context) {
	ctx, stop := c.WithTimeout(p, second)
	use(ctx)
}
