// A loop has ended before the statement.
package a

import "context"

func f(p context.Context) {
	for i := 0; i < 3; i++ {
		use(p)
	}
	ctx, cancel := context.WithCancel(p)
	_ = cancel
	use(ctx)
}

func use(ctx context.Context) {}
