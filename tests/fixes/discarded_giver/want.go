// A function of the same file gives what is discarded.
package a

import "context"

func f(p context.Context) {
	ctx, cancel := start(p)
	defer cancel()
	use(ctx)
}

func start(p context.Context) (context.Context, context.CancelFunc) {
	return context.WithCancel(p)
}

func use(ctx context.Context) {}
