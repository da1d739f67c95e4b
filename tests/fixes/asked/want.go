// The context is asked whether it has ended.
package a

import "context"

func f(p context.Context) {
	ctx, cancel := context.WithCancel(p)
	defer cancel()
	_ = cancel
	<-ctx.Done()
}
