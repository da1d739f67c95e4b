package b

import "context"

func f(p context.Context) {
	_, outer := context.WithCancel(p)
	run(func() {
		_, cancel := context.WithCancel(p)
		use(cancel)
	})
	use(outer) //ctxvet:accept LC05 behind the literal
}
