package a

import "context"

func f(p context.Context) {
	ctx, cancel := context.WithCancel(p)
	defer cancel() //ctxvet:accept LC05 it is deferred now
	use(ctx)
}
