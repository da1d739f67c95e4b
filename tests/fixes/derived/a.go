// Another context is made of it, which is returned.
package a

import "context"

func f(p context.Context) context.Context {
	ctx, _ := context.WithCancel(p)
	other := context.WithValue(ctx, 1, 2)
	return other
}

func use(ctx context.Context) {}
