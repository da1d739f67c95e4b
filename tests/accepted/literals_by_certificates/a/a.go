package a

import "context"

func f(p context.Context) {
	_, outer := context.WithCancel(p)
	run(func() {
		_, cancel := context.WithCancel(p)
		use(cancel) //ctxvet:accept LC05 in the literal
	})
	use(outer)
}
