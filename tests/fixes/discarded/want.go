// A name stands in place of the blank.
package a

import "context"

func f(p context.Context) {
	ctx, cancel := context.WithCancel(p)
	defer cancel()
	use(ctx)
}

func use(ctx context.Context) {}
