package b

import "context"

// What stands above a finding changes nothing of its fingerprint, nor do blanks.
func first() {}

func f(p context.Context) {
		ctx, cancel := context.WithCancel(p)
		_ = "é"; ctx, cancel = context.WithCancel(ctx)
		defer   cancel()
	use(ctx)
}
