// The statement stands in a function literal.
package a

import "context"

func f(p context.Context) {
	go func() {
		ctx, _ := context.WithCancel(p)
		use(ctx)
	}()
}

func use(ctx context.Context) {}
