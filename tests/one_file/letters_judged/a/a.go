package a

import "context"

// Größe is judged as any other name.
func Größe(été context.Context) {
	ctx, 取消 := context.WithCancel(été) /* not yet called */
	use(ctx)
}
