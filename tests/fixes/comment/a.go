// The line stands below a comment behind the statement.
package a

import "context"

func f(p context.Context) {
	ctx, cancel := context.WithCancel(p) // ends with f
	_ = cancel
	use(ctx)
}

func use(ctx context.Context) {}
