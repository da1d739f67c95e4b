package b

import (
	"a"
	"context"
)

func f(p context.Context) {
	ctx, cancel := context.WithCancel(a.Begin(p))
	defer cancel()
	use(ctx)
}
