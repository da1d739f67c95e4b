// The statement takes several lines.
package a

import "context"

func f(p context.Context) {
	ctx, cancel := context.WithTimeout(
		p,
		5,
	)
	_ = cancel
	use(ctx)
}

func use(ctx context.Context) {}
