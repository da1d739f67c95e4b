// The line has the white space of the statement.
package a

import "context"

func f(p context.Context) {
    ctx, cancel := context.WithCancel(p)
    defer cancel()
    _ = cancel
    use(ctx)
}

func use(ctx context.Context) {}
