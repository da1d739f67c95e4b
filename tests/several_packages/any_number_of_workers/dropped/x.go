package dropped

import (
	"context"
	"giver"
)

func f(p context.Context) {
	ctx, cancel := giver.With(p)
	use(ctx)
}
