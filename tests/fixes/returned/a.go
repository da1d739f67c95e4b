// The context is returned.
package a

import "context"

func f(p context.Context) context.Context {
	ctx, _ := context.WithCancel(p)
	return ctx
}

func use(ctx context.Context) {}
