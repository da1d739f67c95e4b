// A cancel function that is only given to nothing is called by defer.
package a

import "context"

func f(p context.Context) {
	ctx, cancel := context.WithCancel(p)
	_ = cancel
	use(ctx)
}

func use(ctx context.Context) {}
