// Something else calls it on a path.
package a

import "context"

func f(p context.Context, done bool) {
	ctx, cancel := context.WithCancel(p)
	if done {
		return
	}
	use(ctx)
	cancel()
}

func use(ctx context.Context) {}
