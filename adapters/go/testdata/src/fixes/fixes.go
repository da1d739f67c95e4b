package fixes // want package:`"yes":false`

import "context"

func f(p context.Context) {
	ctx, _ := context.WithCancel(p) // want "LC03 WithCancel cancel function discarded"
	use(ctx)
}

func use(ctx context.Context) {}
