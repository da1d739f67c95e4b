package b

import "context"

func f(p context.Context) {
	_, cancel := context.WithCancel(p) //ctxvet:accept LC03,LC06,LC09,LC11,LC12,LC13,LC16 none of these
	use(cancel)
}

func g(p context.Context) {
	_, cancel := context.WithCancel(p) //ctxvet:accept LC05
	use(cancel)
}
