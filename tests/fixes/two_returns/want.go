// Both findings have the same fix.
package a

import "context"

func f(p context.Context, done bool) {
	ctx, cancel := context.WithCancel(p)
	defer cancel()
	_ = cancel
	if done {
		return
	}
	use(ctx)
}

func use(ctx context.Context) {}
