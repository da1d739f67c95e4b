package b

import "context"

func F(p context.Context) context.Context {
	ctx, _ := context.WithCancel(p)
	return ctx
}
