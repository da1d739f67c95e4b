// It takes a cause.
package a

import "context"

func f(p context.Context) {
	ctx, cancel := context.WithCancelCause(p)
	defer cancel(nil)
	use(ctx)
}

func use(ctx context.Context) {}
