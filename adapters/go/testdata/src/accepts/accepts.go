package accepts // want package:`"yes":false`

import "context"

func lives(parent context.Context) context.Context {
	ctx, end := context.WithCancel(parent)
	if ctx.Err() != nil {
		end()
	}
	return ctx //ctxvet:accept LC05 it lives as long as the process // want "LC05 end .*accepted: it lives"
}
