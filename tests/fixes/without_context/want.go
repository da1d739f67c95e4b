// The context has no name.
package a

import "context"

func f(p context.Context) {
	_, cancel := context.WithCancel(p)
	defer cancel()
	_ = cancel
}

func use(ctx context.Context) {}
