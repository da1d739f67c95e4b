package a

import "context"

func f(p context.Context) {
	context.WithCancel(p); use(" //ctxvet:accept LC03 x")
	use(" //ctxvet:accept LC03 x")
}
