// A name stands in place of the blank.
package a

import "context"

func f(p context.Context) {
	ctx, _ := context.WithCancel(p)
	use(ctx)
}

func use(ctx context.Context) {}
