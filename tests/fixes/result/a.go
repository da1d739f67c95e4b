// The context is a named result.
package a

import "context"

func f(p context.Context) (ctx context.Context) {
	ctx, _ = context.WithCancel(p)
	return
}

func use(ctx context.Context) {}
