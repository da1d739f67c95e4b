// The statement is the first of an if.
package a

import "context"

func f(p context.Context) {
	if ctx, _ := context.WithCancel(p); ctx != nil {
		use(ctx)
	}
}

func use(ctx context.Context) {}
