// So they would of a cancel function without a name.
package a

import "context"

func f(p context.Context) {
	for range []int{1, 2} {
		ctx, _ := context.WithCancel(p)
		use(ctx)
	}
}

func use(ctx context.Context) {}
