// A function of the same file gives the cancel function.
package a

import "context"

func f(p context.Context) {
	ctx, stop := start(p)
	_ = stop
	use(ctx)
}

func start(p context.Context) (context.Context, context.CancelFunc) {
	return context.WithCancel(p)
}

func use(ctx context.Context) {}
