// The context has the name of the one that it is made of.
package a

import "context"

func f(ctx context.Context) {
	c, cancel := context.WithCancel(ctx)
	defer cancel()
	use(c)
}

func use(ctx context.Context) {}
