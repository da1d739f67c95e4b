package b

import (
	"a"
	"context"
)

func f(p context.Context) {
	ctx, cancel := context.WithCancel(p)
	use(ctx)
	a.End(cancel)
}
