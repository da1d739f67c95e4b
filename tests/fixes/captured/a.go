// A function literal captures the context.
package a

import "context"

func f(p context.Context) {
	ctx, _ := context.WithCancel(p)
	go func() { use(ctx) }()
}

func use(ctx context.Context) {}
