// The context has the name of the one that it is made of.
package a

import "context"

func f(ctx context.Context) {
	c, _ := context.WithCancel(ctx)
	use(c)
}

func use(ctx context.Context) {}
