// A goroutine is given the context.
package a

import "context"

func f(p context.Context) {
	ctx, _ := context.WithCancel(p)
	go use(ctx)
}

func use(ctx context.Context) {}
