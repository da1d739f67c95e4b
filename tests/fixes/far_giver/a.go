// The giver is declared elsewhere.
package a

import "context"

func f(p context.Context) {
	ctx, _ := start(p)
	use(ctx)
}

func use(ctx context.Context) {}
