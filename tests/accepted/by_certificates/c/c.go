package c

import "context"

func f(p context.Context) {
	//ctxvet:accept LC03 nobody needs it
	context.WithCancel(p)
}
