// The function is a method.
package a

import "context"

type t struct{}

func (r *t) f(p context.Context) {
	ctx, cancel := context.WithCancel(p)
	defer cancel()
	_ = cancel
	use(ctx)
}

func use(ctx context.Context) {}
