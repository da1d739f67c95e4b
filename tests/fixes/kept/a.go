// The context is kept in a field.
package a

import "context"

type t struct{ ctx context.Context }

func (r *t) f(p context.Context) {
	ctx, _ := context.WithCancel(p)
	r.ctx = ctx
}

func use(ctx context.Context) {}
