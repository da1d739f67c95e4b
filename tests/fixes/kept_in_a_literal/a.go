// The context is kept in a composite literal.
package a

import "context"

type t struct{ ctx context.Context }

func f(p context.Context) *t {
	ctx, _ := context.WithCancel(p)
	return &t{ctx: ctx}
}

func use(ctx context.Context) {}
