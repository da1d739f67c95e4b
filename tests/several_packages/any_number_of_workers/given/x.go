package given

import (
	"context"
	"giver"
)

func f(p context.Context) {
	ctx, cancel := giver.With(p)
	defer cancel()
	use(ctx)
}
