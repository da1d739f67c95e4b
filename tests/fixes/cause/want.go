// A cancel function that takes a cause is called with nil.
package a

import "context"

func f(p context.Context) {
	ctx, fail := context.WithCancelCause(p)
	defer fail(nil)
	_ = fail
	use(ctx)
}

func use(ctx context.Context) {}
