// The context has no name.
package a

import "context"

func f(p context.Context) {
	_, cancel := context.WithCancel(p)
	_ = cancel
}

func use(ctx context.Context) {}
