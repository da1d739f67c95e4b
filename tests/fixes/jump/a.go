// The function jumps, which may be a loop.
package a

import "context"

func f(p context.Context, again bool) {
	if again {
		goto end
	}
	use(p)
end:
	use(p)
	ctx, _ := context.WithCancel(p)
	use(ctx)
}

func use(ctx context.Context) {}
