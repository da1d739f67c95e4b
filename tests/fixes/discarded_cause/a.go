// It takes a cause.
package a

import "context"

func f(p context.Context) {
	ctx, _ := context.WithCancelCause(p)
	use(ctx)
}

func use(ctx context.Context) {}
