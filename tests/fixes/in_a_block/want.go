// The statement stands in a block of its own.
package a

import "context"

func f(p context.Context, wide bool) {
	if wide {
		ctx, cancel := context.WithCancel(p)
		defer cancel()
		_ = cancel
		use(ctx)
	}
}

func use(ctx context.Context) {}
