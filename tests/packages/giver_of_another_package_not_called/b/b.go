package b

import (
	"a"
	"context"
)

func f(p context.Context) {
	ctx, cancel := a.With(p)
	use(ctx, cancel)
}
