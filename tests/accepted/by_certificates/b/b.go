package b

import "context"

func f(p context.Context) {
	ctx, cancel := context.WithCancel(p)
	use(ctx)
	defer cancel() //ctxvet:accept LC05 it is deferred now
}
