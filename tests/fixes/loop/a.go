// In a loop the calls would wait for the function's end.
package a

import "context"

func f(p context.Context) {
	for i := 0; i < 3; i++ {
		ctx, cancel := context.WithCancel(p)
		_ = cancel
		use(ctx)
	}
}

func use(ctx context.Context) {}
